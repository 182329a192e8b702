"""Tests the end in Lisp and `chaosd` on two subnets, over the bridge of tests/bridge.py: either serves the other, in CHUDP."""

from tests.bridge import bridging
from tests.chudp import CHUDP, FAR, FAR_BRIDGE, NEAR_BRIDGE, SIZES, listed
from tests.lisp import Pair
from tests.second import FIRST, SECOND, Server, ran
from tests.support import DONE, SERVER, at, folder, free_ports, mixed_content, stored_problems


class ThroughABridge(Pair):
    """300 files both ways through a bridge that loses and repeats."""

    def check_files(self):
        contents = {f"F{number}.LISP": mixed_content(size) for number, size in enumerate(SIZES)}
        with bridging(lost=0.01, twice=0.02) as bridge, folder() as kept, folder() as here:
            port, own = free_ports(2)
            options = [*CHUDP, "--bridge", f"{NEAR_BRIDGE:o}"]
            host = Server(self.server, kept, options=options, ports=(port, bridge.port), of_all=True)
            bridge.add_host(SERVER, port)
            bridge.add_host(FAR, own)
            line = [*CHUDP, "--bridge", f"{FAR_BRIDGE:o}", "--timeout", "600", f"{FAR:o}", at(own), f"{SERVER:o}={at(bridge.port)}"]
            for name, content in contents.items():
                (here / name).write_bytes(content)
            problems = ran(self.client, ["put", *line, *contents], cwd=here).problems(DONE, b"", b"")
            for name, content in contents.items():
                problems += stored_problems(kept / name, content)
                (here / name).unlink()
            self.check(self.named(f"put of {len(contents)} files through a bridge"), problems + host.problems())
            problems = ran(self.client, ["get", *line, *contents], cwd=here).problems(DONE, b"", b"")
            for name, content in contents.items():
                problems += stored_problems(here / name, content)
            self.check(self.named(f"get of {len(contents)} files through a bridge"), problems + host.problems())
            host.end()
        hops = {(NEAR_BRIDGE, SERVER), (FAR_BRIDGE, FAR)}
        self.check(self.named("the hops of all that came"), listed(("hops", bridge.trailers, hops)))
        self.check(self.named("much was lost"), [] if bridge.lost > 10 else [f"{bridge.lost} were"])


class ChaosdAsksThroughABridge(ThroughABridge):
    client, server = FIRST, SECOND
    seconds = 120

    def test_300_files_go_both_ways(self):
        self.check_files()


class LispAsksThroughABridge(ThroughABridge):
    client, server = SECOND, FIRST
    seconds = 120

    def test_300_files_go_both_ways(self):
        self.check_files()
