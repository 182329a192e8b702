"""Tests the command line of `chaosd`: help, and the messages about words that are not of their form."""

from tests.support import BAD_LINE, DONE, Case, at, folder, free_ports, run

ADDRESS_FORM = "1 to 6 octal digits, from 1 to 177777"
SOCKET_FORM = "a.b.c.d:port in decimal, without leading zeros, with a port from 1 to 65535"
TURNS_FORM = "a decimal number from 0 to 1000000000, without leading zeros"
PEER_FORM = "a Chaosnet address, `=` and a UDP address with a port from 1 to 65535, such as 402=127.0.0.1:9002"
ENTRY_FORM = "a Chaosnet address or `*`, then `=` and a UDP address with a port from 1 to 65535, such as 402=127.0.0.1:9002"

BAD_ADDRESSES = [
    "", "0", "000000", "0000401", "8", "19", "401x", "x", "+1", " 1", "1 ", "0o1", "200000", "777777", "1000000", "4.1",
]
BAD_SOCKETS = [
    "", ":", "127.0.0.1", "127.0.0.1:", ":9001", "9001", "127.0.0.1:0", "127.0.0.1:00", "127.0.0.1:09001", "127.0.0.1:65536",
    "127.0.0.1:+1", "127.0.0.1:x", "127.0.0.1:1 ", " 127.0.0.1:1", "127.0.0.01:1", "00.0.0.1:1", "256.0.0.1:1", "127.0.0:1",
    "127.0.0.1.1:1", "127.0.0.1:1:1", "localhost:9001", "[::1]:9001", "127.0.0.1=9001",
]
BAD_TURNS = ["", "01", "00", "+1", "x", "1x", " 1", "1.5", "0x1", "1000000001", "4294967296", "10000000000"]
BAD_PEERS = [
    "", "=", "402", "402=", "=127.0.0.1:1", "402:127.0.0.1:1", "402=127.0.0.1", "0=127.0.0.1:1", "200000=127.0.0.1:1",
    "0000402=127.0.0.1:1", "402=127.0.0.1:0", "402==127.0.0.1:1", "402 =127.0.0.1:1", "402=403=127.0.0.1:1",
    "*", "*=", "**=127.0.0.1:1", " *=127.0.0.1:1", "*=127.0.0.1:0", "*==127.0.0.1:1", "*=*=127.0.0.1:1",
]

CARRIAGE_FORM = "1 or 2"
ONE_PACKET = "can't be used with '--chudp', because a CHUDP datagram carries one packet"
NEEDS_CHUDP = "needs '--chudp', because only CHUDP names a bridge"
OWN_FORM = "can't be used with '--chudp', because a key needs datagrams of this program's own form"
TABLE_KEYS = "can't be used with a hosts table: write key=FILE into the table, on the line of each host that has the key"
BRIDGE_ONCE_FORM = "at most one bridge"
CONTACT_FORM = "1 to 64 printable ASCII characters, without a space"
WINDOW_FORM = "a decimal number from 1 to 64, without leading zeros"
LOGIN_FORM = "1 to 16 letters and digits"
PATH_FORM = "a path of FILE: 1 to 64 letters, digits, dots, hyphens and underscores, without a leading dot"
PATH_ONCE_FORM = "each path once"
ONE_LOCAL = "takes one LOCAL alone"
LOCALS_FORM = "a name for standard input, given with --as"
OTHER_FORM = "a Chaosnet address other than this host's own"
RETRANSMIT_FORM = "a decimal number of milliseconds from 20 to 60000, without leading zeros"
TIMEOUT_FORM = "a decimal number of seconds from 1 to 3600, without leading zeros"
ONE_PATH = "names one file for several PATHs: the name of a folder ends with /, such as DIR/"
PATTERN_FORM = "a path without * and ?. FILE has no listing: name each file"
FOLLOWED_FORM = "a Chaosnet address in front of `=*`, such as 402=*: 1 to 6 octal digits, from 1 to 177777"
HOST_FORM = "a host's name: 1 to 64 letters, digits, hyphens and dots, one of them a letter"
HOST_PATH_FORM = "a host's name, a colon and a path, such as lispm:A.LISP"
BARE_HOST_FORM = "a host's name and a colon at the end of the line, such as lispm:"
KEPT_NAME_FORM = "nothing after the colon. put keeps a file's name, unless --as PATH gives another"
NO_ADDRESS_FORM = "a host's name. To give addresses, begin the line with ADDRESS and UDP"
STAYS_FORM = "a path without a host, because a file stays on its host"
ONE_HOST_FORM = "one host in the whole line"
TABLE = "can't be used in a line that begins with ADDRESS, because such a line has all addresses itself"
NO_FOLDERS = "FILE has no folders: name the files, as in DIR/*"

BAD_CARRIAGES = ["", "0", "3", "01", "02", "+1", "1 ", " 2", "one", "12"]
BAD_WINDOWS = ["", "0", "00", "01", "65", "+1", "x", "1x", " 1", "1.5", "0x1", "65536", "65600"]
BAD_TIMEOUTS = ["", "0", "01", "3601", "+1", "x", "1.5", "65536", "65546"]
BAD_RETRANSMITS = ["", "0", "19", "020", "60001", "+20", "x", "20ms", " 20", "20.5", "0x20", "65556", "4294967316", "18446744073709551636"]
BAD_CONTACTS = ["", " ", "FILE X", "FILE ", "č", "A" * 65]
BAD_LOGINS = ["", "A.B", "A B", "ABCDEFGHIJKLMNOPQ", "č"]
BAD_PATHS = ["", ".", ".A", "..", "A/B", "/A", "A B", "A+", "č", "A" * 65]
PATTERNS = ["*", "A*", "?", "A.?"]
BAD_HOSTS = ["", "4-4", "-", "4.1", "a_b", "a b", "a:", "č", "a" * 65]

HELP = {
    "--help": [
        "Usage: chaosd <COMMAND>\n",
        "  show     Decode datagrams, given as lines of hex on standard input\n",
        "  lab      Simulate both ends of a connection, from a script on standard input\n",
        "  filelab  Simulate a FILE client and server, from a script on standard input\n",
        "  loop     Run a FILE script from standard input between two hosts in this\n           process, and print the replies\n",
        "  serve    Serve the files of a folder to other hosts\n",
        "  ask      Send a FILE script from standard input to another host, and print\n           the replies\n",
        "  get      Copy files from another host\n",
        "  put      Copy local files to another host\n",
        "  delete   Delete files on another host\n",
        "  rename   Rename a file on another host\n",
        "  0  done, or help or the version was shown\n",
        "  3  something was refused, or no reply came\n",
        "  -V, --version  Print version\n",
    ],
    "help show": [
        "Usage: chaosd show [OPTIONS]\n",
        "--file   Also print the data as text, and decode the commands and replies\n",
        "--chudp  Decode datagrams of CHUDP, the framing of cbridge and other\n",
    ],
    "help --help": ["Usage: chaosd <COMMAND>\n", "Exit status:\n"],
    "help -h": ["Usage: chaosd <COMMAND>\n", "Exit status:\n"],
    "help lab": ["Usage: chaosd lab\n"],
    "help filelab": ["Usage: chaosd filelab\n"],
    "help loop": ["Usage: chaosd loop [OPTIONS]\n"],
    "help serve": ["Usage: chaosd serve [OPTIONS] FOLDER\n       chaosd serve [OPTIONS] ADDRESS UDP FOLDER [PEER]...\n"],
    "help ask": ["Usage: chaosd ask [OPTIONS] HOST\n       chaosd ask [OPTIONS] ADDRESS UDP TO [PEER]...\n"],
    "help get": ["Usage: chaosd get [OPTIONS] HOST:PATH... [LOCAL]\n       chaosd get [OPTIONS] ADDRESS UDP SERVER PATH...\n"],
    "help put": ["Usage: chaosd put [OPTIONS] LOCAL... HOST:\n       chaosd put [OPTIONS] ADDRESS UDP SERVER LOCAL...\n"],
    "help delete": ["Usage: chaosd delete [OPTIONS] HOST:PATH...\n       chaosd delete [OPTIONS] ADDRESS UDP SERVER PATH...\n"],
    "serve --help": [
        "  <WORD>...  FOLDER   Folder to serve. The hosts table has the addresses of this\n",
        "             If the first word has digits alone, it is ADDRESS:\n",
        "             ADDRESS  Chaosnet address of this host: 1 to 6 octal digits, from 1\n                      to 177777\n",
        "             UDP      UDP address to receive at: a.b.c.d:port in decimal, with a\n                      port from 1 to 65535\n",
        "             FOLDER   Folder to serve\n",
        "             PEER     Another host, as ADDRESS=UDP in the forms above: at most\n",
        "                      other hosts. ADDRESS=* is a host that is answered where\n",
        "--turns <N>         End the server after N turns, 0 to 1000000000; an idle\n",
        "                    turn takes some 10 ms [default: 1000000000]\n",
        "--chudp             Use CHUDP, the framing of cbridge and other Chaosnet\n",
        "--bridge <ADDRESS>  Name ADDRESS, the bridge's own Chaosnet address, as\n",
        "--key <FILE>        Seal the datagrams of each PEER with the key in FILE:\n",
        "--window <N>        Give each connection windows of N packets, 1 to 64:\n",
        "                    a client may have N commands in flight [default: 13]\n",
        "--retransmit <MS>   Retransmit unacknowledged packets after MS\n                          milliseconds, 20 to 60000 [default: measured]\n",
        "-q, --quiet             Log only errors, as --log quiet does\n",
        "--hosts <FILE>      Read addresses from the hosts table FILE; not in a\n                          line that begins with ADDRESS\n",
        "  chaosd serve files\n",
        "--log-time          Begin each log line with the time, in UTC\n",
        "--only-peers        Accept datagrams only from the UDP address of a PEER\n",
        "--read-only         Refuse all changes: a client that writes, renames or\n",
        "  chaosd serve 401 127.0.0.1:9001 files 402=127.0.0.1:9002\n",
        "  chaosd serve --chudp --bridge 3040 401 0.0.0.0:42042 files '*=192.0.2.1:42042'\n",
    ],
    "ask --help": [
        "--key <FILE>         Seal datagrams with the key in FILE, which the server\n",
        "--contact <NAME>     Ask for the contact NAME: 1 to 64 printable ASCII\n                           characters without a space [default: FILE]\n",
        "-t, --timeout <SECONDS>  Wait up to SECONDS for each reply, 1 to 3600\n",
        "-q, --quiet              Report only what failed\n",
        "-v, --verbose            Report more, even if standard error is not a terminal\n",
        "                     (otherwise 1000 turns, which take 10 to 17 seconds)\n",
        "--retransmit <MS>    Retransmit unacknowledged packets after MS\n",
        "--any-source         Accept datagrams from any UDP address, for a server\n                           with several interfaces\n",
        "--strict             End the run at the first ERROR reply, with status 3\n",
        "             TO       Chaosnet address of the host to ask, in the form of\n                      ADDRESS\n",
        "  chaosd ask lispm < script\n",
    ],
    "loop --help": [
        "--carriage <N>  Send datagrams of version N: 1 carries one packet,\n                      2 carries several [default: 1]\n",
    ],
    "get --help": [
        "             SERVER   Host to call, as ADDRESS=UDP in the forms above\n",
        "             PATH     File on the server, of 1 to 64 letters, digits, dots,\n                      hyphens and underscores, without a leading dot\n",
        "             LOCAL    Where the files go, as --output says; . is this folder\n",
        "  chaosd get lispm:A.LISP lispm:B.LISP src/\n",
        "--bridge <ADDRESS>   Name ADDRESS, the bridge's own Chaosnet address, as\n",
        "--contact <NAME>     Ask for the contact NAME: 1 to 64 printable ASCII\n",
        "--login <NAME>       Log in as the user NAME:\n                           1 to 16 letters and digits [default: CHAOSD]\n",
        "--window <N>         Keep up to N commands in flight, 1 to 64; the\n                           server's window may allow fewer [default: 64]\n",
        "                     (otherwise 1000 turns and at least 10 seconds)\n",
        "--any-source         Accept datagrams from any UDP address, for a server\n",
        "-o, --output <LOCAL>     Write the file to LOCAL, where - is standard output;\n",
        "--text               Translate a text between ASCII and the Lisp machine's\n",
        "-v, --verbose            Print a line with the size and the SHA-256 of each\n                           file, even if standard error is not a terminal\n",
    ],
    "put --help": [
        "  <WORD>...  LOCAL    Local file, put under its last name if that is a PATH:\n",
        "  chaosd put src/A.LISP src/B.LISP lispm:\n",
        "written as ./402 if it is the first.\n",
        "standard input, and needs --as\n",
        "--rename             Rename a file whose name is no PATH: write _ for each\n",
        "--as <PATH>          Put the one local file under the name PATH\n",
    ],
    "delete --help": [
        "--any-source         Accept datagrams from any UDP address, for a server\n",
        "  chaosd delete lispm:A.LISP lispm:B.LISP\n",
        "  chaosd delete 402 127.0.0.1:9002 401=127.0.0.1:9001 A.LISP B.LISP\n",
    ],
    "rename --help": [
        "Usage: chaosd rename [OPTIONS] HOST:OLD NEW\n       chaosd rename [OPTIONS] ADDRESS UDP SERVER OLD NEW\n",
        "  chaosd rename lispm:A.LISP B.LISP\n",
        "--any-source         Accept datagrams from any UDP address, for a server\n",
    ],
    "ask nonsense -h": ["Usage: chaosd ask"],
    "--version": ["chaosd 0.2.0\n", "\nchaosd.stamp, beside the program or in ../share/chaosd, says how it was built.\n"],
    "-V": ["chaosd 0.2.0\n"],
}

WIDEST = 80


def is_refused(case, words, message):
    """A bad line, whose error output begins with this message."""
    ended = run(words)
    problems = ended.problems(BAD_LINE, b"", None)
    if not ended.err.startswith(f"error: {message}\n".encode()):
        problems.append(f"error output {ended.err!r}")
    case.check(f"{message!r} of {words[0]}, status 2", problems)


def is_bad(case, words, text, place, form):
    """A line whose one bad word is this text at this place: the message names the text, the place and the form."""
    is_refused(case, words, f"invalid value '{text}' for '{place}': expected {form}")


def is_misfit(case, words, argument, reason):
    """A line with this argument that doesn't go with the others, for this reason."""
    is_refused(case, words, f"the argument '{argument}' {reason}")


def clash(first, second):
    """The message about two local files that would go under one path."""
    return f"the files '{first}' and '{second}' would go under one path: put one of them alone, with '--as'"


ADDRESSES = ["402", "127.0.0.1:9002", "401=127.0.0.1:9001"]


class Line(Case):
    """Words out of their form, mistakes and help."""

    seconds = 4

    def test_a_word_out_of_form_is_named_with_its_form(self):
        """The message names a word that is not of its form, its place and the form."""
        for text in BAD_ADDRESSES:
            is_bad(self, ["serve", text, "127.0.0.1:1", "d"], text, "ADDRESS", ADDRESS_FORM)
            is_bad(self, ["ask", text, "127.0.0.1:1", "401"], text, "ADDRESS", ADDRESS_FORM)
            is_bad(self, ["ask", "402", "127.0.0.1:1", text], text, "TO", ADDRESS_FORM)
        for text in BAD_SOCKETS:
            is_bad(self, ["serve", "401", text, "d"], text, "UDP", SOCKET_FORM)
            is_bad(self, ["ask", "402", text, "401"], text, "UDP", SOCKET_FORM)
        for text in BAD_TURNS:
            is_bad(self, ["serve", "--turns", text, "401", "127.0.0.1:1", "d"], text, "--turns", TURNS_FORM)
        for text in BAD_WINDOWS:
            is_bad(self, ["serve", "--window", text, "401", "127.0.0.1:1", "d"], text, "--window", WINDOW_FORM)

    def test_a_peer_out_of_form_is_named_and_so_is_one_too_many(self):
        """The same for peers, for one peer too many, and for a second peer of an address."""
        for text in BAD_PEERS:
            is_bad(self, ["serve", "401", "127.0.0.1:1", "d", text], text, "PEER", ENTRY_FORM)
            is_bad(self, ["ask", "402", "127.0.0.1:1", "401", "403=127.0.0.1:3", "*=127.0.0.1:4", text], text, "PEER", ENTRY_FORM)
        for words in [
            ["serve", "401", "127.0.0.1:1", "d", "402=127.0.0.1:2", "000402=127.0.0.1:3"],
            ["ask", "402", "127.0.0.1:1", "401", "401=127.0.0.1:2", "401=127.0.0.1:2"],
        ]:
            is_bad(self, words, words[-1], "PEER", "each Chaosnet address once")
        words = ["serve", "401", "127.0.0.1:1", "d", "*=127.0.0.1:2", "402=127.0.0.1:3", "*=127.0.0.1:4"]
        is_bad(self, words, words[-1], "PEER", BRIDGE_ONCE_FORM)
        many = [f"{address:o}=127.0.0.1:9002" for address in range(1, 34)]
        is_bad(self, ["serve", "401", "127.0.0.1:9001", "d", *many], "41=127.0.0.1:9002", "PEER", "at most 32 peers")
        for text in ["*=127.0.0.1:1", "*"]:
            is_bad(self, ["get", *ADDRESSES[:2], text, "A"], text, "SERVER", PEER_FORM)

    def test_a_word_of_a_copy_out_of_form_is_named(self):
        """The same for the words of `get` and `put`."""
        for command in ["get", "put"]:
            for text in BAD_ADDRESSES:
                is_bad(self, [command, text, *ADDRESSES[1:], "A"], text, "ADDRESS", ADDRESS_FORM)
            for text in BAD_SOCKETS:
                is_bad(self, [command, "402", text, ADDRESSES[2], "A"], text, "UDP", SOCKET_FORM)
            for text in BAD_PEERS:
                is_bad(self, [command, *ADDRESSES[:2], text, "A"], text, "SERVER", PEER_FORM)
            for text in BAD_WINDOWS:
                is_bad(self, [command, "--window", text, *ADDRESSES, "A"], text, "--window", WINDOW_FORM)
            for text in BAD_LOGINS:
                is_bad(self, [command, "--login", text, *ADDRESSES, "A"], text, "--login", LOGIN_FORM)
        for text in BAD_PATHS:
            is_bad(self, ["get", *ADDRESSES, text], text, "PATH", PATH_FORM)
            is_bad(self, ["get", *ADDRESSES, "A", text, "B"], text, "PATH", PATH_FORM)
            is_bad(self, ["put", "--as", text, *ADDRESSES, "A"], text, "--as", PATH_FORM)
        is_bad(self, ["get", *ADDRESSES, "B", "A", "C", "A"], "A", "PATH", PATH_ONCE_FORM)
        is_misfit(self, ["get", "--output", "x", *ADDRESSES, "A", "B"], "--output x", ONE_PATH)
        is_bad(self, ["put", *ADDRESSES, "-"], "-", "LOCAL", LOCALS_FORM)
        is_bad(self, ["put", "--rename", *ADDRESSES, "A", "-", "B"], "-", "LOCAL", LOCALS_FORM)
        is_misfit(self, ["put", "--as", "X", *ADDRESSES, "A", "B"], "--as X", ONE_LOCAL)
        is_bad(self, ["put", "--as", "X Y", *ADDRESSES, "A", "B"], "X Y", "--as", PATH_FORM)

    def test_two_files_that_go_under_one_path_are_both_named(self):
        is_refused(self, ["put", *ADDRESSES, "a/Y", "a/X", "b c", "b/X"], clash("a/X", "b/X"))
        is_refused(self, ["put", *ADDRESSES, "sub/inner.txt", "inner.txt"], clash("sub/inner.txt", "inner.txt"))
        for first, second in [("a+b", "a_b"), ("a_b", "d/a b"), (".A", "_A"), ("č", "__")]:
            is_refused(self, ["put", "--rename", *ADDRESSES, "A", first, second], clash(first, second))

    def test_the_own_address_is_not_the_servers(self):
        for address in ["401", "000401"]:
            server = f"{address}=127.0.0.1:9001"
            for words in [["get", "A"], ["put", "A"], ["delete", "A"], ["rename", "A", "B"]]:
                is_bad(self, [words[0], "401", "127.0.0.1:9002", server, *words[1:]], server, "SERVER", OTHER_FORM)
            is_bad(self, ["ask", "401", "127.0.0.1:9002", address, server], address, "TO", OTHER_FORM)

    def test_a_timeout_is_so_many_seconds(self):
        for text in BAD_TIMEOUTS:
            for words in [["get", *ADDRESSES, "A"], ["put", *ADDRESSES, "A"], ["ask", "402", "127.0.0.1:1", "401"]]:
                is_bad(self, [words[0], "--timeout", text, *words[1:]], text, "--timeout", TIMEOUT_FORM)

    def test_a_retransmission_comes_after_so_many_milliseconds(self):
        for text in BAD_RETRANSMITS:
            for words in [["serve", "401", "127.0.0.1:1", "d"], ["ask", "402", "127.0.0.1:1", "401"]]:
                is_bad(self, [words[0], "--retransmit", text, *words[1:]], text, "--retransmit", RETRANSMIT_FORM)
        for words in [["get", *ADDRESSES, "A"], ["put", *ADDRESSES, "A"], ["delete", *ADDRESSES, "A"], ["rename", *ADDRESSES, "A", "B"]]:
            ended = run([words[0], "--retransmit", "20", *words[1:]])
            self.check(f"{words[0]} chooses it by itself", ended.problems(BAD_LINE, b"", [b"unexpected argument '--retransmit' found"]))
        with folder() as served:
            for millis in ["20", "60000"]:
                ended = run(["serve", "--turns", "0", "--retransmit", millis, "401", at(free_ports(1)[0]), served])
                self.check(f"serve takes {millis} milliseconds", ended.problems(DONE))

    def test_only_clients_have_any_source(self):
        for words in [["serve", "401", "127.0.0.1:1", "d"], ["loop"]]:
            ended = run([words[0], "--any-source", *words[1:]])
            self.check(f"{words[0]} has no --any-source", ended.problems(BAD_LINE, b"", [b"unexpected argument '--any-source' found"]))
        for words in [["ask", "402", "127.0.0.1:1"], ["get", *ADDRESSES], ["put", *ADDRESSES], ["delete", *ADDRESSES], ["rename", *ADDRESSES]]:
            ended = run([words[0], "--any-source", *words[1:]])
            self.check(f"{words[0]} has it", ended.problems(BAD_LINE, b"", [b"the line needs "]))

    def test_paths_of_delete_and_rename_are_paths_of_file(self):
        for text in BAD_PATHS:
            is_bad(self, ["delete", *ADDRESSES, "A", text], text, "PATH", PATH_FORM)
            is_bad(self, ["rename", *ADDRESSES, text, "A"], text, "OLD", PATH_FORM)
            is_bad(self, ["rename", *ADDRESSES, "A", text], text, "NEW", PATH_FORM)
        is_bad(self, ["delete", *ADDRESSES, "B", "A", "A"], "A", "PATH", PATH_ONCE_FORM)

    def test_file_has_no_listing_and_no_folders(self):
        for text in PATTERNS:
            is_bad(self, ["get", *ADDRESSES, "A", text], text, "PATH", PATTERN_FORM)
            is_bad(self, ["delete", f"lispm:{text}"], text, "PATH", PATTERN_FORM)
            is_bad(self, ["rename", f"lispm:{text}", "A"], text, "OLD", PATTERN_FORM)
        for words in [["-r", "d", "lispm:"], ["--recursive", *ADDRESSES, "d"], ["d", "-r", "lispm:"]]:
            is_refused(self, ["put", *words], f"the flag '--recursive' can't be used: {NO_FOLDERS}")

    def test_a_line_without_addresses_names_one_host(self):
        for text in BAD_HOSTS:
            is_bad(self, ["ask", "--", text], text, "HOST", HOST_FORM)
            is_bad(self, ["put", "--", "A", f"{text}:B"], f"{text}:B", "HOST:", KEPT_NAME_FORM if text == "a:" else BARE_HOST_FORM)
            if text != "a:":
                is_bad(self, ["delete", "--", f"{text}:A"], f"{text}:A", "HOST:PATH", HOST_PATH_FORM)
        for words in [["put", "A", "B"], ["put", "A", "lispm"], ["put", "lispm:A", "A"]]:
            is_bad(self, words, words[-1], "HOST:", BARE_HOST_FORM)
        for words in [["get", "A", "lispm:B"], ["get", "A", "B"], ["delete", "A"], ["rename", "A", "B"]]:
            is_bad(self, words, words[1], "HOST:PATH", HOST_PATH_FORM)
        is_bad(self, ["get", "lispm:A", "B", "lispm:C"], "B", "HOST:PATH", HOST_PATH_FORM)
        is_bad(self, ["get", "lispm:A", "LISPM:B", "its:C"], "its:C", "HOST:PATH", ONE_HOST_FORM)
        is_refused(self, ["get", "A"], "the line needs HOST:PATH in front of LOCAL")
        is_refused(self, ["put", "lispm:"], "the line needs LOCAL in front of HOST:")
        is_refused(self, ["rename", "lispm:A"], "the line needs NEW behind HOST:OLD")
        for words in [["ask", "lispm", "x"], ["serve", "files", "x"], ["rename", "lispm:A", "B", "x"]]:
            is_refused(self, words, "unexpected argument 'x' found")

    def test_put_keeps_a_files_name_and_rename_its_host(self):
        for text in ["lispm:B", "lispm:a/B", "lispm:."]:
            is_bad(self, ["put", "A", text], text, "HOST:", KEPT_NAME_FORM)
        for text in ["lispm:B", "its:B", "lispm:", "401=127.0.0.1:9001"]:
            is_bad(self, ["rename", "lispm:A", text], text, "NEW", STAYS_FORM)
            is_bad(self, ["rename", *ADDRESSES, "A", text], text, "NEW", STAYS_FORM)

    def test_an_address_is_no_hosts_name(self):
        for text in [ADDRESSES[2], f"{ADDRESSES[2]}:A", "402=lispm:", "127.0.0.1:9001"]:
            is_bad(self, ["put", "A", "402", text], text, "HOST:", NO_ADDRESS_FORM)
        for text in [ADDRESSES[2], f"{ADDRESSES[2]}:A", "401=lispm:A"]:
            for words in [["get", text, "A"], ["get", text], ["delete", text], ["rename", text, "B"]]:
                is_bad(self, words, text, "HOST:PATH", NO_ADDRESS_FORM)

    def test_a_udp_address_is_behind_an_address(self):
        for words in [["serve", "d", "402=127.0.0.1:2"], ["ask", "401"], ["get", ADDRESSES[2], "A"], ["put", ADDRESSES[2], "A"], ["delete", ADDRESSES[2], "A"]]:
            is_refused(self, [words[0], "127.0.0.1:1", *words[1:]], "the line needs ADDRESS in front of UDP")

    def test_a_host_alone_has_no_path(self):
        for words in [["get", "lispm:"], ["get", "lispm:", "d/"], ["get", "lispm:A", "lispm:"], ["delete", "lispm:"]]:
            is_refused(self, words, "the line needs PATH behind HOST:")
        is_refused(self, ["rename", "lispm:", "B"], "the line needs OLD behind HOST:")

    def test_files_go_to_one_place(self):
        is_misfit(self, ["get", "-o", "x", "lispm:A", "y"], "--output x", "can't be used where the last word says where the files go")
        is_misfit(self, ["get", "lispm:A", "lispm:B", "y"], "LOCAL y", ONE_PATH)
        is_misfit(self, ["get", "-o", "y", "lispm:A", "lispm:B"], "--output y", ONE_PATH)

    def test_a_line_with_addresses_has_no_table(self):
        served, asked = ["serve", "401", "127.0.0.1:1", "d"], ["ask", "402", "127.0.0.1:1", "401"]
        for words in [served, asked, ["get", *ADDRESSES, "A"], ["put", *ADDRESSES, "A"], ["delete", *ADDRESSES, "A"], ["rename", *ADDRESSES, "A", "B"]]:
            is_misfit(self, [words[0], "--hosts", "h", *words[1:]], "--hosts h", TABLE)

    def test_a_host_that_is_followed_is_a_peer_of_serve(self):
        served = ["serve", "401", "127.0.0.1:1", "d"]
        for text in ["=*", "0=*", "8=*", "*=*", "200000=*"]:
            is_bad(self, [*served, text], text, "PEER", FOLLOWED_FORM)
        for words in [["402=*", "000402=*"], ["402=127.0.0.1:2", "402=*"]]:
            is_bad(self, [*served, *words], words[1], "PEER", "each Chaosnet address once")
        many = [f"{address:o}=*" for address in range(1, 34)]
        is_bad(self, [*served, *many], "41=*", "PEER", "at most 32 peers")
        is_bad(self, [*served, "77=127.0.0.1:2", *many], "40=*", "PEER", "at most 32 peers")
        why = "can't be used with '--only-peers', because no UDP address of that host is known"
        is_misfit(self, [*served, "--only-peers", "403=127.0.0.1:2", "402=*"], "PEER 402=*", why)
        why = "can't be used, because ask sends first and needs a UDP address"
        is_misfit(self, ["ask", "402", "127.0.0.1:1", "401", "401=*"], "PEER 401=*", why)

    def test_a_carriage_is_1_or_2(self):
        """The same for the carriage of each command that has it."""
        for text in BAD_CARRIAGES:
            for words in [
                ["loop"],
                ["serve", "401", "127.0.0.1:1", "d"],
                ["ask", "402", "127.0.0.1:1", "401"],
                ["get", *ADDRESSES, "A"],
                ["put", *ADDRESSES, "A"],
            ]:
                is_bad(self, [words[0], "--carriage", text, *words[1:]], text, "--carriage", CARRIAGE_FORM)

    def test_chudp_has_no_bundles_and_a_bridges_address_needs_it(self):
        served = ["serve", "401", "127.0.0.1:1", "d"]
        for words in [served, ["ask", "402", "127.0.0.1:1", "401"], ["get", *ADDRESSES, "A"], ["delete", *ADDRESSES, "A"]]:
            is_misfit(self, [words[0], "--chudp", "--carriage", "2", *words[1:]], "--carriage 2", ONE_PACKET)
            is_misfit(self, [words[0], "--bridge", "3040", *words[1:]], "--bridge 3040", NEEDS_CHUDP)
            for text in BAD_ADDRESSES:
                is_bad(self, [words[0], "--chudp", "--bridge", text, *words[1:]], text, "--bridge", ADDRESS_FORM)
        for option in [["--chudp"], ["--bridge", "3040"]]:
            ended = run(["loop", *option])
            self.check(f"loop has no {option[0]}", ended.problems(BAD_LINE, b"", [f"unexpected argument '{option[0]}' found".encode()]))

    def test_a_key_is_for_own_datagrams_and_not_beside_a_served_table(self):
        served = ["serve", "401", "127.0.0.1:1", "d"]
        for words in [served, ["ask", "402", "127.0.0.1:1", "401"], ["put", *ADDRESSES, "A"], ["rename", "lispm:A", "B"]]:
            is_misfit(self, [words[0], "--chudp", "--key", "k", *words[1:]], "--key k", OWN_FORM)
        is_misfit(self, ["serve", "--key", "k", "d"], "--key k", TABLE_KEYS)
        for name in ["loop", "show", "lab", "filelab"]:
            ended = run([name, "--key", "k"])
            self.check(f"{name} has no key", ended.problems(BAD_LINE, b"", [b"unexpected argument '--key' found"]))

    def test_a_contact_is_printable_and_short(self):
        for text in BAD_CONTACTS:
            for words in [["ask", "402", "127.0.0.1:1", "401"], ["get", *ADDRESSES, "A"], ["rename", *ADDRESSES, "A", "B"]]:
                is_bad(self, [words[0], "--contact", text, *words[1:]], text, "--contact", CONTACT_FORM)
        ended = run(["serve", "--contact", "FILE", "401", "127.0.0.1:1", "d"])
        self.check("serve has no --contact", ended.problems(BAD_LINE, b"", [b"unexpected argument '--contact' found"]))

    def test_the_first_mistake_is_reported_with_the_usage(self):
        """The first bad word is reported with the usage of its subcommand; clap reports its own mistakes."""
        wanted = (
            f"error: invalid value 'x' for '--turns': expected {TURNS_FORM}\n\n"
            "Usage: chaosd serve [OPTIONS] FOLDER\n       chaosd serve [OPTIONS] ADDRESS UDP FOLDER [PEER]...\n\nFor more information, try '--help'.\n"
        )
        ended = run(["serve", "--turns", "x", "0", "u", "d", "p"])
        self.check("the first bad word is reported with its usage", ended.problems(BAD_LINE, b"", wanted.encode()))
        for words, piece in [
            (["nonsense"], b"unrecognized subcommand 'nonsense'"),
            (["serve"], b"error: the line needs FOLDER\n\nUsage: chaosd serve "),
            (["ask", "-q"], b"error: the line needs HOST\n\nUsage: chaosd ask "),
            (["get", "-t", "lispm:A"], b"error: the line needs HOST:PATH\n\nUsage: chaosd get "),
            (["put"], b"error: the line needs LOCAL and HOST:\n\nUsage: chaosd put "),
            (["delete", "--"], b"error: the line needs HOST:PATH\n\nUsage: chaosd delete "),
            (["rename"], b"error: the line needs HOST:OLD and NEW\n\nUsage: chaosd rename "),
            (["serve", "401", "127.0.0.1:1"], b"error: the line needs FOLDER behind UDP\n"),
            (["ask", "401", "127.0.0.1:1"], b"error: the line needs TO behind UDP\n"),
            (["get", "402"], b"error: the line needs UDP behind ADDRESS\n"),
            (["get", *ADDRESSES[:2]], b"error: the line needs SERVER behind UDP\n"),
            (["get", *ADDRESSES], b"error: the line needs PATH behind SERVER\n"),
            (["put", *ADDRESSES], b"error: the line needs LOCAL behind SERVER\n"),
            (["rename", *ADDRESSES, "A"], b"error: the line needs NEW behind OLD\n"),
            (["rename", *ADDRESSES, "A", "B", "C"], b"error: unexpected argument 'C' found\n"),
            (["get", "--version"], b"unexpected argument '--version' found"),
        ]:
            self.check(f"`chaosd {' '.join(words)}`: a mistake is reported", run(words).problems(BAD_LINE, b"", [piece]))

    def test_help_says_what_each_subcommand_does_and_what_each_word_is(self):
        """Help says what each subcommand does, and what each word is."""
        for words, pieces in HELP.items():
            ended = run(words.split())
            self.check(f"`chaosd {words}` says it", ended.problems(DONE, [piece.encode() for piece in pieces], b""))

    def test_no_line_of_help_is_wider_than_80_columns(self):
        for name in ["", "show", "lab", "filelab", "loop", "serve", "ask", "get", "put", "delete", "rename"]:
            for form in ["-h", "--help"]:
                ended = run([*name.split(), form])
                wide = [line for line in ended.out.decode().splitlines() if len(line) > WIDEST]
                self.check(f"`chaosd {name} {form}` fits", ended.problems(DONE) + wide)
        ended = run(["--version"])
        self.check("the version fits", [line for line in ended.out.decode().splitlines() if len(line) > WIDEST])
