"""Tests `chaosd ask` where nobody answers, and over a network that loses, repeats and reorders."""

import subprocess

from tests.scripts import FILE_SCRIPT, NO_REPLY, content_read, get_script, put_script
from tests.support import (
    DONE, FILE_DATA, LONG, REFUSED, USUAL_WINDOW,
    Case, Lossy, at, finished, free_ports, mixed_content, network_before, serving, started, stored_problems,
)  # fmt: skip


def asked(words, script):
    """A run of `ask` to its end, which may wait for a thousand turns."""
    process = started(words, stdin=subprocess.PIPE, stdout=subprocess.PIPE, stderr=subprocess.PIPE)
    return finished(process, script, LONG)


class Nobody(Case):
    """`ask` where nobody answers."""

    seconds = 18

    def test_ask_without_a_peer_ends(self):
        (own,) = free_ports(1)
        problems = asked(["ask", "402", at(own), "401"], FILE_SCRIPT).problems(REFUSED, NO_REPLY, [b"host 401 is no PEER"])
        self.check("ask without a peer: `no reply` once, status 3, and why on standard error", problems)

    def test_ask_of_a_peer_that_is_not_there_ends_after_its_turns(self):
        own, nobody = free_ports(2)
        ended = asked(["ask", "402", at(own), "401", f"401={at(nobody)}"], FILE_SCRIPT)
        problems = ended.problems(REFUSED, NO_REPLY, b"chaosd: no server listens at %s\n" % at(nobody).encode())
        self.check("ask to a peer that isn't there: `no reply` once, status 3, and why on standard error", problems)


class Losing(Case):
    """A network that loses, repeats and reorders."""

    seconds = 15

    def check_file_both_ways(self, version):
        """A file is put and got by this version of the carriage."""
        content, options = mixed_content(20 * FILE_DATA + 9), ["--carriage", str(version)]
        put, put_replies = put_script(b"FILE", content)
        with serving(options=options) as server, network_before(server, Lossy) as network:
            words = ["ask", *options, "402", at(network.peers[0]), "401", f"401={at(network.port)}"]
            ended = asked(words, put + get_script(b"FILE", len(content)))
            problems = ended.problems(DONE, None, b"") + stored_problems(server.folder / "FILE", content)
        problems += [] if ended.out.startswith(put_replies) else [f"the replies to the WRITEs are {ended.out[:300]!r}.."]
        told, _ = content_read(ended.out)
        problems += [] if told == content else [f"{len(told)} bytes came and not the {len(content)} of the file"]
        problems += [] if network.lost > 5 else [f"of {network.count} datagrams {network.lost} were lost"]
        windows = network.windows
        problems += [f"windows of {windows} were told"] if version == 1 and windows != {USUAL_WINDOW} else []
        others = [head for head in network.heads if head[:3] != bytes([0x43, 0x48, version])]
        problems += [f"datagrams began with {others[:3]}"] if others else []
        self.check(f"a file comes whole over a network that loses, repeats and reorders, by carriage {version}", problems)

    def test_a_file_comes_whole_by_carriage_1(self):
        self.check_file_both_ways(1)

    def test_a_file_comes_whole_by_carriage_2(self):
        self.check_file_both_ways(2)
