"""The lab's server: what it shows of runs, and what it answers to other sites."""
import contextlib
import http.client
import json
import socket
import subprocess
import sys
import tempfile
import threading
import unittest
from pathlib import Path

from l4.lab import Lab, read_script
from l4.lab_answers import MOST_BYTES

EXAMPLES = Path(__file__).resolve().parents[3] / "examples"
FIRST = (EXAMPLES / "first.script").read_text()


class Labs(unittest.TestCase):
    def setUp(self):
        self.lab = Lab(FIRST, 256, 4096)
        threading.Thread(target=self.lab.serve_forever, daemon=True).start()

    def tearDown(self):
        self.lab.shutdown()
        self.lab.server_close()

    def send(self, method, path, body=None, **headers):
        """The status and the body of what is answered."""
        connection = http.client.HTTPConnection("127.0.0.1", self.lab.server_port, timeout=600)
        named = {name.replace("_", "-"): value for name, value in headers.items()}
        connection.request(method, path, body, named)
        answer = connection.getresponse()
        got = answer.status, answer.read()
        connection.close()
        return got

    def ask(self, path, wanted=200, **question):
        status, body = self.send("POST", path, json.dumps(question), Content_Type="application/json")
        self.assertEqual(status, wanted, body[:200])
        return json.loads(body)

    def run_of(self, script=FIRST, **question):
        return self.ask("/run", script=script, **question)

    def view(self, script=FIRST, at=1 << 20, **question):
        return self.ask("/view", script=script, at=at, **question)

    def test_a_run_is_shown_after_each_step(self):
        start = {"script": FIRST, "frames": 256, "pageBytes": 4096, "mostBytes": MOST_BYTES}
        self.assertEqual(json.loads(self.send("GET", "/start")[1]), start)
        boot, came = [0, 256, 0, "rwx", None, None], [32, 1, 16, "rwx", 0, 16]
        seen = [(view["at"], view["count"], [it["runs"] for it in view["now"]["spaces"]]) for view in (self.view(at=at) for at in range(5))]
        states = [[[boot], []], [[boot], [], []], [[boot], [], []], [[boot], [], []], [[boot], [], [came]]]
        self.assertEqual(seen, [(at, 4, state) for at, state in enumerate(states)])
        self.assertEqual([self.view(at=at)["old"] for at in range(1, 5)], [self.view(at=at)["now"] for at in range(4)])

    def test_the_steps_of_a_run(self):
        run = self.run_of()
        self.assertEqual(
            [(step["text"], step["answers"], step["line"], step["at"]) for step in run["steps"]],
            [("start 2 create 0x0000c001 0x0000c001 0x00000000", ["started", "2 control ok"], 1, 1),
             ("start 3 ipc 0x00000000 0xffffffff 0x00000000 0x00000010", ["started"], 2, 2),
             ("start 1 ipc 0x0000c001 0x00000000 0x00000000 0x00000000 0x00000080 0x00020008 0x000100c7", ["started"], 3, 3),
             ("transfer 1 3", ["done", "1 ipc 00000000 0 nil", "3 ipc 00000080 0 1 00020008 000100c7"], 3, 4)])
        self.assertEqual(run["steps"][3]["says"], "label 0x0000; map 4 KiB at 0x10000 rwx, send base 0x20000")
        self.assertEqual((run["refusals"], run["notes"]), ({"count": 0, "first": []}, []))
        expired = self.run_of("ipc 2 nil any 0x400 0\n")["steps"][1]
        self.assertEqual((expired["text"], expired["answers"]), ("expire 2", ["expired", "2 ipc 00008000 3 nil"]))
        # a served thread whose wait ends receives again, in a step of the same line
        ended = self.run_of("serve 2\ntimeout 2\ncancel 2\n")["steps"]
        waits = "start 2 ipc 0x00000000 0xffffffff 0x00000000 0x00000000"
        self.assertEqual(
            [(step["text"], step["answers"], step["line"]) for step in ended],
            [(waits, ["started"], 1), ("timeout 2", ["canceled", "2 ipc 00008000 3 nil"], 2), (waits, ["started"], 2),
             ("cancel 2", ["canceled", "2 ipc 00008000 7 nil"], 3), (waits, ["started"], 3)])
        listed = self.run_of("start 2 ipc 0 0xffffffff 0 0\ntimeout 2\nstart 2 ipc 0 0xffffffff 0 0\ncancel 2\n")["steps"]
        self.assertEqual([step["text"] for step in listed], [waits, "timeout 2", waits, "cancel 2"])

    def test_the_outcomes_of_a_plan(self):
        turns = "ipc 2 3 nil 0x4000000 0 0x10000\n", "recv 3 any 0\n"
        told = self.ask("/orders", script=f"thread 3 new nil\nunordered\n{turns[0]}{turns[1]}finally\nreply 2\n", frames=1)
        witnesses = [f"thread 3 new nil\n{first}{second}reply 2\n" for first, second in (turns, turns[::-1])]
        outcomes = [{"answers": [f"2 ipc 0000{tag} 2 nil" if tag == "8000" else "2 ipc 00000000 0 nil"], "witness": it, "broken": []} for tag, it in zip(("8000", "0000"), witnesses)]
        self.assertEqual((told["end"], told["orders"], told["outcomeCount"], told["outcomes"]), ("all", "2", 2, outcomes))
        early = self.ask("/orders", script="unordered\nrecv 2 any 0\n", frames=1, most=1)
        self.assertEqual((early["end"], early["states"]), ("most", 1))

    def test_a_script_that_is_no_plan(self):
        self.assertEqual(self.ask("/orders", 400, script="recv 2 any 0\n")["error"], "O6: the litmus test has no unordered line")
        self.assertEqual(self.ask("/orders", 400, script="unordered\nrecv 9 any 0\n")["error"], "line 2: O5 9: no line creates the thread whose call this is")
        self.assertEqual(self.ask("/orders", 400, script="unordered\n", most=-1)["error"], "most is a number below 4,294,967,296")

    def test_the_last_step_shows_all_answers(self):
        view = self.view()
        answers = [text for line in view["lines"] for text in line["answers"]]
        self.assertEqual(answers, ["2 control ok", "3 waits", "transfer 1 3 done", "1 ipc 00000000 0 nil", "3 ipc 00000080 0 1 00020008 000100c7",
                                   "page 32 frame 16 rwx", "shown 1"])
        self.assertEqual([(line["number"], line["at"], line["isLater"]) for line in view["lines"]], [(1, 1, False), (2, 2, False), (3, 4, False), (4, 4, False)])
        later = [line["isLater"] for line in self.view(at=2)["lines"]]
        self.assertEqual(later, [False, False, True, True])

    def test_why_a_page_is_there(self):
        script = "thread 3 new nil\nrecv 3 any 0x10\nsend 1 3 0x80 0x20008 0x100c7\nrecv 2 any 0x10\nsend 3 2 0x80 0x700a 0x200c6\n"
        told = self.ask("/why", script=script, at=7, space=1, page=7)
        links = ["entry 3 transfer 1 3 map 16 32 rwx rwx", "entry 6 transfer 3 2 grant 32 7 rwx rw-"]
        self.assertEqual(told, {"lines": ["sigma0 page 16", *links, "page 7"], "steps": [None, 4, 7, None]})
        self.assertEqual(self.ask("/why", script=script, at=4, space=2, page=32)["lines"], ["sigma0 page 16", links[0], "page 32"])
        self.assertEqual(self.ask("/why", script=script, at=2, space=2, page=32)["lines"], ["absent"])
        self.assertEqual(self.ask("/why", script=script, at=3, space=2, page=32)["steps"], [4])
        served = "thread 4 new 1\nserve 1\nfault 4 0x5000 0 r--\nfault 4 0x6000 0 r--\n"
        ended = "recv 2 any 0x10\ncancel 2\nrecv 2 any 0x10\nsend 1 2 0x80 0x20008 0x100c7\n"
        self.assertEqual(self.ask("/why", script=ended, at=5, space=1, page=32)["lines"], ["sigma0 page 16", "entry 4 transfer 1 2 map 16 32 rwx rwx", "page 32"])
        self.assertEqual(self.ask("/why", script=served, at=1 << 20, space=2, page=6)["lines"][1][:5], "entry")

    def test_refused_lines_have_their_meaning(self):
        refusals = self.run_of("frob\nsend 1 3 x\nrecv 2 any 0\nsend 1 2 0x1000\nsend 1 2 0")["refusals"]
        self.assertEqual(refusals["count"], 4)
        told = [(it["line"], it["at"], it["code"]) for it in refusals["first"]]
        self.assertEqual(told, [(1, 0, "S1"), (2, 0, "S2"), (4, 1, "M5"), (5, 1, "S4")])
        self.assertEqual(refusals["first"][0]["means"], "the command is unknown")
        self.assertIn("flag", refusals["first"][2]["means"])

    def test_refused_lines_have_the_names_of_threads(self):
        refusals = self.run_of("name b 1\nname a 2\nserve c\nname c 3\n")["refusals"]
        self.assertEqual([(it["line"], it["code"], it["names"]) for it in refusals["first"]], [(3, "S2", ["a", "b"])])

    def test_regions_and_served_threads(self):
        view = self.view("thread 4 new nil\nregion 4 4 100 4 r-x\nserve 4\n")
        self.assertEqual(view["regions"], [{"thread": 4, "first": 4, "source": 100, "count": 4, "rights": "r-x"}])
        self.assertEqual(view["served"], [4])

    def test_words_are_decoded(self):
        message = self.ask("/decode", words=[0x80, 0x20008, 0x100C7], reading="message", pageBytes=4096)
        self.assertEqual(message["lines"], ["label 0x0000; map 4 KiB at 0x10000 rwx, send base 0x20000"])
        self.assertEqual(self.ask("/decode", words=[0x10], reading="window", pageBytes=4096)["lines"], ["complete ---"])
        self.assertEqual(self.ask("/decode", words=[0x42], reading="fpage", pageBytes=4096)["lines"], ["no fpage in 0x00000042"])
        for question in ({"words": []}, {"words": [-1]}, {"words": [1 << 32]}, {"words": [0] * 66}, {"words": 3}, {"words": [0], "reading": "id"}):
            self.ask("/decode", 400, **{"reading": "message", **question})

    def test_plans(self):
        plan = self.ask("/plan", source=4, target=12, count=12, rights=7)
        self.assertEqual((plan["text"], plan["verdict"], plan["pages"]), ("2 items in 1 message", "proved 2", [4, 8]))
        self.assertEqual([(item["place"], item["pages"], item["page"]) for item in plan["items"]], [(0, 4, 4), (4, 8, 8)])
        long = self.ask("/plan", source=0, target=1, count=1985, rights=7)
        self.assertEqual((long["verdict"], len(long["pages"]), long["items"]), ("proved too-long", 256, []))
        self.assertEqual(self.ask("/plan", source=4, target=12, count=0, rights=7)["text"], "N1: the region has no pages")
        self.assertEqual(self.ask("/plan", 400, source=4, target=12, count=1, rights=8), {"error": "rights is a number below 8"})

    def test_another_site_is_refused(self):
        own = f"127.0.0.1:{self.lab.server_port}"
        body, json_type = json.dumps({"script": "", "at": 0}), "application/json"
        for headers in (
            {"Host": "evil.example"},
            {"Host": f"evil.example:{self.lab.server_port}"},
            {"Origin": "http://evil.example"},
            {"Origin": "null"},
            {"Origin": f"https://{own}"},
            {"Origin": f"http://localhost:{self.lab.server_port}"},
        ):
            for method, path in (("GET", "/"), ("GET", "/start"), ("GET", "/views/main.mjs"), ("POST", "/run"), ("POST", "/view"), ("POST", "/plan")):
                self.assertEqual(self.send(method, path, body if method == "POST" else None, Content_Type=json_type, **headers)[0], 403)
        self.assertEqual(self.send("POST", "/view", body, Content_Type=json_type, Origin=f"http://{own}")[0], 200)
        self.assertEqual(self.send("POST", "/view", body, Content_Type="text/plain")[0], 400)

    def test_invalid_requests_get_an_answer(self):
        for path in ("/no", "/../lab.py", "/lab.py", "/%2e%2e/lab.py", "/view", "/views/page.html", "/views/../lab.py"):
            self.assertEqual(self.send("GET", path)[0], 404)
        self.assertEqual(self.send("POST", "/start", "{}", Content_Type="application/json")[0], 404)
        for body in (b"", b"{", b"[]", b"3", b"null", b"\xff", b"[" * 100000, b'{"script": 5}', b'{"script": "\\ud800"}', b'{"frames": 1}', b"9" * 5000):
            self.assertEqual(self.send("POST", "/view", body, Content_Type="application/json")[0], 400, body[:20])
        for question in ({"frames": 0}, {"frames": 4097}, {"frames": -1}, {"frames": True}, {"frames": "5"}, {"frames": 1e9}, {"pageBytes": 2048}, {"at": -1}, {"at": None}):
            self.ask("/view", 400, **{"script": "", "at": 0, **question})
        for question in ({"space": -1}, {"space": 1 << 64}, {"page": 1 << 32}, {"page": None}):
            self.ask("/why", 400, **{"script": "", "at": 0, "space": 0, "page": 0, **question})
        # what is not there is no error
        self.assertEqual(self.view(at=99)["at"], 4)
        self.assertEqual(self.ask("/why", script=FIRST, at=99, space=77, page=4000)["lines"], ["absent"])
        self.assertEqual(self.view("", at=5)["count"], 0)

    def test_raw_bytes_get_an_answer_or_nothing(self):
        head = f"Host: 127.0.0.1:{self.lab.server_port}\r\n".encode()
        kind = b"Content-Type: application/json\r\n"
        for sent in (b"\0" * 64 + b"\r\n\r\n", b"GET " + b"/" * 70000 + b" HTTP/1.1\r\n\r\n", b"GET / HTTP/1.1\r\n" + head + b"A: b\r\n" * 200 + b"\r\n",
                     b"POST /view HTTP/1.1\r\n" + head + kind + b"Content-Length: x\r\n\r\n", b"POST /view HTTP/1.1\r\n" + head + kind + b"\r\n",
                     b"POST /view HTTP/1.1\r\n" + head + kind + b"Content-Length: 99999999999999999999\r\n\r\n", b"DELETE / HTTP/1.1\r\n" + head + b"\r\n"):
            with socket.create_connection(("127.0.0.1", self.lab.server_port), 30) as connection:
                with contextlib.suppress(ConnectionError):
                    connection.sendall(sent)
                    connection.shutdown(socket.SHUT_WR)
                    self.assertRegex(connection.recv(4096), rb"^HTTP/1.\d [45]|^<!DOCTYPE|^\Z|Error")
        self.assertEqual(self.send("GET", "/")[0], 200)

    def test_large_scripts_stay_within_bounds(self):
        long = "recv 2 any 0x400\nipc 1 2 nil 0 0 0\n" * 6000
        view, run = self.view(long), self.run_of(long)
        self.assertEqual((len(view["notes"]), len(view["lines"]), len(run["steps"])), (1, 120, 15_000))
        self.assertRegex(view["notes"][0], "^The lab stops on line [0-9,]+, after 20,000 events")
        self.assertLess(len(json.dumps(view)), 1 << 20)
        self.assertEqual(self.ask("/view", 400, at=0, script="#" * (MOST_BYTES + 1))["error"], "the lab takes scripts of up to 262,144 bytes; l4 run takes any")
        lines = self.view("x" * MOST_BYTES)["lines"]
        self.assertEqual((len(lines), lines[0]["answers"], len(lines[0]["text"])), (1, ["line 1 refused S4"], 302))
        self.assertEqual(self.run_of("\n" * MOST_BYTES)["lineCount"], MOST_BYTES)
        shows = self.view("show 1 0 4096\n" * 1000, frames=4096)
        self.assertEqual((len(shows["notes"]), len(shows["lines"][49]["answers"])), (1, 0))
        self.assertEqual([len(line["answers"]) for line in self.view("show 1 0 4096\n", frames=4096)["lines"]], [65])

    def test_the_page_and_the_server_have_the_same_limit(self):
        self.assertEqual(json.loads(self.send("GET", "/start")[1])["mostBytes"], MOST_BYTES)
        self.assertEqual(self.ask("/view", 400, script="steps\n" * 2_000_000)["error"], "a request has up to 2,097,152 bytes")

    def test_64_threads_with_4096_frames(self):
        script = "".join(f"thread {thread} new nil\nrecv {thread} 1 0x10\ndelegate 1 {thread} 0 0 4096 rwx\n" for thread in range(3, 65))
        view = self.view(script, frames=4096)
        self.assertEqual((len(view["now"]["spaces"]), view["now"]["isWhole"], len(view["notes"])), (64, False, 1))
        self.assertEqual(view["now"]["spaces"][2]["runs"], [[0, 4096, 0, "rwx", 0, 0]])
        self.assertLess(len(json.dumps(view)), 1 << 20)

    def test_files_are_read_up_to_the_limit(self):
        with tempfile.TemporaryDirectory() as folder:
            file = Path(folder) / "long.script"
            file.write_text("steps\n" * 2_000_000)
            text = read_script(str(file))
            self.assertTrue(text.endswith("steps\n") and MOST_BYTES - 6 < len(text) <= MOST_BYTES)
            file.write_bytes(b"x" * 2_000_000)
            self.assertEqual(read_script(str(file)), "")
            file.write_bytes(b"\xff\n")
            self.assertEqual(self.view(read_script(str(file)))["lines"][0]["answers"], ["line 1 refused S1"])

    def test_the_command_line(self):
        command = [sys.executable, "-m", "l4", "lab", "--no-open"]
        done = subprocess.run([*command, "/no/such"], stdout=subprocess.PIPE, stderr=subprocess.PIPE, text=True)
        self.assertEqual((done.returncode, done.stdout), (2, ""))
        self.assertIn("/no/such", done.stderr)
        with subprocess.Popen([*command, str(EXAMPLES / "first.script")], stdout=subprocess.PIPE, text=True) as lab:
            try:
                self.assertRegex(lab.stdout.readline(), r"^The lab is at http://127.0.0.1:\d+/ until it is interrupted\.$")
            finally:
                lab.terminate()


if __name__ == "__main__":
    unittest.main()
