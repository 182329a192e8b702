"""Tests `chaosd show`, help and mistakes: statuses, where texts go, and what a fault of reading or writing does."""

import os
import select
import subprocess

from tests.support import BAD_LINE, DONE, FAULT, INPUT_LIMIT, PATIENCE, PROGRAM, REFUSED, SHOW_LINE_LIMIT, Case, folder, run, within

STATUS = b"43 48 01 00 07 00 00 04 01 01 02 01 01 02 03 05 00 00 00 10 00 12 00 0D"
STATUS_REPORT = (
    b"op 007 STS\nfwd 0 count 4\nto 000401 001001\nfrom 000402 001405\nnum 0 ack 16\nreceipt 18 window 13\n"
)
DATA = b"43 48 01 00 80 00 00 01 01 01 02 01 01 02 03 05 00 05 00 10 00 41"
DATA_REPORT = (
    b"op 200 DAT\nfwd 0 count 1\nto 000401 001001\nfrom 000402 001405\nnum 5 ack 16\ndata 41\n"
)
SHORT_REPORT = b"fault 1 Short\n"


class Show(Case):
    """What `show` prints of datagrams, and its statuses."""

    seconds = 3

    def test_each_line_is_reported_or_refused(self):
        """What `show` prints, and its statuses where it runs to the end."""
        both = STATUS + b"\n" + DATA
        for name, given, status, out in [
            ("a datagram is reported, status 0", STATUS + b"\n", DONE, STATUS_REPORT),
            ("a last line without its end counts", DATA, DONE, DATA_REPORT),
            ("two reports have an empty line between", both, DONE, STATUS_REPORT + b"\n" + DATA_REPORT),
            ("an empty input has no report, status 0", b"", DONE, b""),
            ("an empty line is refused, status 3", b"\n", REFUSED, SHORT_REPORT),
            ("a line of no digits is refused, status 3", b"what is this\n", REFUSED, b"fault 0 Line\n"),
            ("a datagram that is cut is refused, status 3", STATUS[:-3], REFUSED, b"fault 4 Packet 3 Truncated\n"),
            ("what follows a refusal is reported, status 3", b"\n" + STATUS, REFUSED, SHORT_REPORT + b"\n" + STATUS_REPORT),
            ("what goes before a refusal is reported, status 3", STATUS + b"\n\n", REFUSED, STATUS_REPORT + b"\n" + SHORT_REPORT),
            ("a line of 8,192 bytes and a carriage return is read", STATUS.rjust(SHOW_LINE_LIMIT) + b"\r\n", DONE, STATUS_REPORT),
            ("a line of 40,000 bytes is refused, status 3", STATUS.rjust(40_000), REFUSED, b"fault 0 Line\n"),
            ("a line of 8,193 bytes is refused, status 3", STATUS.rjust(SHOW_LINE_LIMIT + 1) + b"\n", REFUSED, b"fault 0 Line\n"),
        ]:
            self.check(name, run(["show"], given).problems(status, out, b""))

    def test_a_datagram_is_read_in_each_form_and_its_first_fault_is_told(self):
        """The forms in which a datagram may be written, and the first fault of each that is refused."""
        digits = STATUS.replace(b" ", b"")
        for line in [digits, digits.lower(), b"\t" + STATUS[:12] + digits[8:20] + b"  " + digits[20:] + b" \t", STATUS + b"\r"]:
            for end in [b"", b"\n", b"\r\n"] if not line.endswith(b"\r") else [b"", b"\n"]:
                self.check(f"{line + end} is read", run(["show"], line + end).problems(DONE, STATUS_REPORT, b""))
        free_half = DATA[:-5] + b"FF 41"
        self.check("a last half word is free", run(["show"], free_half).problems(DONE, DATA_REPORT, b""))
        count_489 = b"43480100 0700 01E9 0101 0201 0102 0305 0000 0010"
        refused = [
            (b"", b"1 Short"),
            (b"\r", b"1 Short"),
            (b" \t", b"1 Short"),
            (b"434801", b"1 Short"),
            (b"4G", b"0 Line"),
            (b"4 3", b"0 Line"),
            (b"434", b"0 Line"),
            (b"43 48 01 00 \x00", b"0 Line"),
            (b"43 48 01 00 \xff\xff", b"0 Line"),
            (b"43480100\r\r", b"0 Line"),
            (b"42480100", b"2 BadMark"),
            (b"43490100", b"2 BadMark"),
            (b"43480101", b"3 BadVersion"),
            (b"43480300", b"3 BadVersion"),
            (b"434802", b"1 Short"),
            (b"42480200", b"2 BadMark"),
            (b"43480200", b"6 BadNumber"),
            (b"43480209" + b"00" * 2_017, b"6 BadNumber"),
            (b"43480201" + b"00" * 2_017, b"7 TooLong"),
            (b"43480201", b"8 PacketAt 1 1 Short"),
            (b"43480202" + STATUS[12:-3], b"8 PacketAt 1 3 Truncated"),
            (b"43480201" + STATUS[12:] + b"00", b"5 Trailing"),
            (b"43480100", b"4 Packet 1 Short"),
            (b"43480100 0700 0004 0101 0201 0102 0305 0000 00", b"4 Packet 1 Short"),
            (count_489, b"4 Packet 2 BadCount"),
            (count_489 + b"4" * 980, b"4 Packet 2 BadCount"),
            (STATUS[:-3], b"4 Packet 3 Truncated"),
            (STATUS + b" 00", b"5 Trailing"),
            (STATUS + b" 0000", b"5 Trailing"),
        ]
        for line, fault in refused:
            ended = run(["show"], line + b"\n")
            self.check(f"{line[:48]} is refused: {fault.decode()}", ended.problems(REFUSED, b"fault " + fault + b"\n", b""))
        given = b"".join(line + b"\n" for line, _ in refused)
        wanted = b"\n".join(b"fault " + fault + b"\n" for _, fault in refused)
        self.check("all these refusals in one input", run(["show"], given).problems(REFUSED, wanted, b""))

    def test_a_datagram_of_version_2_is_one_report_or_one_refusal(self):
        """Datagrams of version 2: each is one report of its packets, or one refusal."""
        two = STATUS[12:] + DATA[11:]
        both = b"carriage 2 packets 2\n\n" + STATUS_REPORT + b"\n" + DATA_REPORT
        one = b"43480201" + DATA[11:]
        lone = b"carriage 2 packets 1\n\n" + DATA_REPORT
        mixed = b"\n".join([STATUS_REPORT, lone, SHORT_REPORT, lone])
        for name, given, status, out in [
            ("two packets of a datagram are one report", b"43 48 02 02 " + two, DONE, both),
            ("one packet of version 2 has the first line too", one, DONE, lone),
            ("with the number 3 the third packet is short", b"43 48 02 03 " + two, REFUSED, b"fault 8 PacketAt 3 1 Short\n"),
            ("with the number 1 something is left", b"43 48 02 01 " + two, REFUSED, b"fault 5 Trailing\n"),
            ("with the number 0 it is refused", b"43 48 02 00 " + two, REFUSED, b"fault 6 BadNumber\n"),
            ("with the number 9 it is refused", b"43 48 02 09 " + two, REFUSED, b"fault 6 BadNumber\n"),
            ("there is no version 3", b"43 48 03 00", REFUSED, b"fault 3 BadVersion\n"),
            ("reports of both versions have an empty line between", STATUS + b"\n" + one + b"\n\n" + one, REFUSED, mixed),
        ]:
            self.check(name, run(["show"], given + b"\n").problems(status, out, b""))
        greatest = b" 80 00 F1 E8" + b" FF" * 12 + b" AA" * 488
        told = b"op 200 DAT\nfwd 15 count 488\nto 177777 177777\nfrom 177777 177777\nnum 65535 ack 65535\ndata" + b" AA" * 488 + b"\n"
        four = b"43 48 02 04" + greatest * 4
        text = b"\n".join([b"carriage 2 packets 4\n"] + [told] * 4)
        self.check("four of the greatest packets are read", run(["show"], four).problems(DONE, text, b""))
        self.check("100 such datagrams", run(["show"], b"\n".join([four] * 100)).problems(DONE, b"\n".join([text] * 100), b""))
        ended = run(["show"], four + b" 00")
        self.check("with a byte more it is too long", ended.problems(REFUSED, b"fault 7 TooLong\n", b""))

    def test_opcodes_have_their_names_and_fields_their_ranges(self):
        """The opcodes' numbers and names, and the greatest and the least of each field."""
        opcodes = {
            0o1: "RFC", 0o2: "OPN", 0o3: "CLS", 0o4: "FWD", 0o5: "ANS", 0o6: "SNS", 0o7: "STS", 0o11: "LOS", 0o12: "LSN",
            0o14: "EOF", 0o15: "UNC", 0o200: "DAT", 0o277: "DAT", 0o300: "DWD", 0o377: "DWD",
            0o0: "", 0o10: "", 0o13: "", 0o16: "", 0o20: "", 0o177: "",
        }  # fmt: skip
        given = "".join(f"43480100 {op:02x}00 F000 FFFF 0000 0201 8000 FFFF 0000\n" for op in opcodes)
        rest = "fwd 15 count 0\nto 177777 000000\nfrom 001001 100000\nnum 65535 ack 0\n"
        wanted = "\n".join(f"op {op:03o} {name}".rstrip() + "\n" + rest for op, name in opcodes.items())
        self.check("opcodes have their names", run(["show"], given.encode()).problems(DONE, wanted.encode(), b""))

    def test_packets_with_all_their_data_are_reported(self):
        """Reports of packets with all their data, one after another."""
        bodies = [[(n + at) % 256 for at in range(488)] for n in range(100)]
        given, wanted = [], []
        for body in bodies:
            # Bytes lie two to a word, the first in the low half, and a word goes with its high half first.
            carried = "".join(f"{body[at + 1]:02X}{body[at]:02x}" for at in range(0, 488, 2))
            given.append(f"43480100 8000 F1E8 FFFF FFFF FFFF FFFF FFFF FFFF {carried}\n")
            told = "".join(f" {byte:02X}" for byte in body)
            wanted.append(
                "op 200 DAT\nfwd 15 count 488\nto 177777 177777\nfrom 177777 177777\nnum 65535 ack 65535\n"
                f"data{told}\n"
            )
        ended = run(["show"], "".join(given).encode())
        self.check("100 packets with all their data", ended.problems(DONE, "\n".join(wanted).encode(), b""))

    def test_the_longest_input_is_read_and_one_byte_more_is_a_fault(self):
        """The longest input, and one byte more."""
        longest = b"\n" * INPUT_LIMIT
        text = b"\n".join([SHORT_REPORT] * INPUT_LIMIT)
        self.check("an input of 1,048,576 bytes is read", run(["show"], longest).problems(REFUSED, text, b""))
        ended = run(["show"], longest + b"\n")
        self.check("one byte more is a fault, status 1, behind the reports", ended.problems(FAULT, text, [b"chaosd: ", b"1048576"]))
        with open("/dev/full", "wb") as full:
            ended = run(["show"], longest + b"\n", stdout=full)
        self.check("the fault of writing what came before is met first", ended.problems(FAULT, None, [b"chaosd: the output"]))
        ended = run(["show"], b"A" * INPUT_LIMIT)
        self.check("a line of 1,048,576 bytes is refused", ended.problems(REFUSED, b"fault 0 Line\n", b""))

    def test_each_line_that_is_typed_is_reported_before_the_next(self):
        """Somebody who types lines sees the report of each before the next is typed."""
        process = subprocess.Popen([PROGRAM, "show"], stdin=subprocess.PIPE, stdout=subprocess.PIPE)
        problems = []
        typed = [(STATUS, STATUS_REPORT), (b"", b"\n" + SHORT_REPORT), (DATA, b"\n" + DATA_REPORT)]
        for line, wanted in typed:
            process.stdin.write(line + b"\n")
            process.stdin.flush()
            seen = within(process.stdout, len(wanted))
            if seen != wanted:
                problems.append(f"{seen!r} came and not {wanted!r}")
                break
        process.stdin.write(STATUS[:10])
        process.stdin.flush()
        if select.select([process.stdout], [], [], 0.2)[0]:
            problems.append("something came for half a line")
        process.stdin.write(STATUS[10:])
        process.stdin.close()
        wanted = b"\n" + STATUS_REPORT
        seen = within(process.stdout, len(wanted) + 1)
        if seen != wanted:
            problems.append(f"{seen!r} came at the end and not {wanted!r}")
        if process.wait(PATIENCE) != REFUSED:
            problems.append(f"status {process.returncode}")
        self.check("each line that is typed is reported before the next", problems)


class Streams(Case):
    """Help, mistakes, and standard streams that fail."""

    def test_help_is_shown_and_a_mistake_is_told(self):
        """Help, and lines that are no line of the program."""
        for words, piece in [
            (["--help"], b"Usage: chaosd <COMMAND>"),
            (["-h"], b"Usage: chaosd <COMMAND>"),
            (["help"], b"Usage: chaosd <COMMAND>"),
            (["help", "show"], b"Usage: chaosd show"),
            (["show", "--help"], b"Usage: chaosd show"),
        ]:
            name = f"`chaosd {' '.join(words)}` shows help on standard output, status 0"
            self.check(name, run(words).problems(DONE, [piece], b""))
        for words in [[], [""], ["nonsense"], ["SHOW"], ["show", "more"], ["show", "--loud"], ["--loud"], ["chaosd", "show"]]:
            name = f"`{' '.join(['chaosd', *words])}` is a mistake, told on standard error, status 2"
            self.check(name, run(words).problems(BAD_LINE, b"", [b"\n"]))
        self.check("a word that is no text is a mistake, status 2", run([b"\xff"]).problems(BAD_LINE, b"", [b"chaosd: "]))
        self.check("a mistake reads no input", run(["show", "more"], STATUS).problems(BAD_LINE, b"", [b"\n"]))

    def test_a_standard_output_that_takes_nothing_is_told(self):
        """Standard output that takes nothing: a fault is told on standard error."""
        for words, given in [(["show"], STATUS), (["--help"], b""), (["help", "show"], b"")]:
            name = f"`chaosd {' '.join(words)}`"
            with open("/dev/full", "wb") as full:
                ended = run(words, given, stdout=full)
            self.check(f"{name} with standard output full: told, status 1", ended.problems(FAULT, None, [b"chaosd: "]))
            ended = run(words, given, closed=[1])
            self.check(f"{name} with standard output closed: told, status 1", ended.problems(FAULT, None, [b"chaosd: "]))
        reader, writer = os.pipe()
        os.close(reader)
        ended = run(["show"], STATUS, stdout=writer)
        os.close(writer)
        self.check("`chaosd show` to a pipe that nobody reads: told, status 1", ended.problems(FAULT, None, [b"chaosd: "]))
        with open("/dev/full", "wb") as full:
            ended = run(["nonsense"], stdout=full)
        self.check("a mistake with standard output full is told, status 2", ended.problems(BAD_LINE, None, [b"nonsense"]))
        ended = run(["nonsense"], closed=[2])
        self.check("a mistake with standard error closed: status 2", ended.problems(BAD_LINE, b"", b""))
        with open("/dev/full", "wb") as full:
            ended = run(["show"], STATUS, stdout=full, closed=[2])
        self.check("a fault with standard error closed: status 1", ended.problems(FAULT))

    def test_a_standard_input_that_gives_nothing_is_told(self):
        """Standard input that gives nothing."""
        with folder() as here:
            number = os.open(here, os.O_RDONLY)
            ended = run(["show"], stdin=number)
            os.close(number)
        self.check("a folder as standard input: told, status 1", ended.problems(FAULT, b"", [b"chaosd: "]))
        ended = run(["show"], stdin=subprocess.DEVNULL, closed=[0])
        self.check("standard input closed: told, status 1", ended.problems(FAULT, b"", [b"chaosd: "]))
        ended = run(["--help"], stdin=subprocess.DEVNULL, closed=[0])
        self.check("help reads no input", ended.problems(DONE, [b"Usage"], b""))
