"""Tests of the client beside the program: CLASSAD_POOL names it, or else it is the one that was built in this checkout."""

import os
import stat
import tempfile
import unittest
from typing import Callable, List

from classad_pool import Ad, Claimed, Classes, Conjunct, Done, Ended, Gang, Hit, Job, Jobs, Offer, Pool, Refused, Reply, Status, User, Users, Value, Verdict

TOP = os.path.dirname(os.path.dirname(os.path.dirname(os.path.abspath(__file__))))
PROGRAM = os.environ.get("CLASSAD_POOL") or os.path.join(TOP, "crates/classad_pool/out/classad_pool")
T = "[ Requirements = true ]"


class Commands(unittest.TestCase):
    def setUp(self) -> None:
        self.pool = Pool(PROGRAM)
        self.addCleanup(self.pool.close)

    def refused(self, number: int, text: str, call: Callable[[], Reply]) -> None:
        with self.assertRaises(Refused) as found:
            call()
        self.assertEqual((found.exception.number, found.exception.text), (number, text))

    def offered(self, job: str, user: str, ad: str = T) -> List[Offer]:
        self.pool.submit(job, user, ad)
        return [*self.pool.negotiate().all_offers()]

    def test_ads(self) -> None:
        self.assertFalse(self.pool.advertise("m", 600, "[ Memory = 64 * 2; Requirements = true ]").replaced)
        self.assertEqual(self.pool.show("m").text, "[ Memory = 64 * 2; Requirements = true ]")
        self.assertTrue(self.pool.advertise("m", 9, "[ Memory = 128;\n  Requirements = true ]").replaced)
        self.assertEqual(self.pool.list().ads, (Status("m", 0, 9, None, None),))
        self.assertEqual(self.pool.evalin("m", "Memory / 2"), Value("64"))
        self.assertEqual(self.pool.eval('{ 1, "a" }'), Value('{ 1, "a" }'))
        self.assertEqual(self.pool.query("[ Requirements = true; Rank = TARGET.Memory ]").hits, (Hit("m", "128"),))
        self.assertEqual(self.pool.clock(9).expired, 1)
        self.pool.advertise("n", 9, T)
        self.assertEqual(self.pool.withdraw("n"), Done("withdrawn", "n"))
        self.assertEqual(self.pool.list().ads, ())

    def test_jobs(self) -> None:
        self.pool.advertise("m", 600, "[ Rank = TARGET.Size; Requirements = true ]")
        self.assertEqual(self.pool.priority("ann", 10), Done("priority", "ann"))
        self.assertEqual(self.offered("a", "ann", "[ Size = 1; Requirements = true ]"), [Offer("a", "ann", ("m",))])
        self.assertEqual(self.pool.list().ads[0].offered, "a")
        self.assertEqual(self.pool.claim("a"), Claimed("a", ("m",), ()))
        self.assertEqual(self.offered("b", "bob", "[ Size = 2; Requirements = true ]"), [Offer("b", "bob", ("m",))])
        self.assertEqual(self.pool.list().ads[0], Status("m", 0, 600, "a", "b"))
        self.assertEqual(self.pool.claim("b"), Claimed("b", ("m",), ("a",)))
        self.assertEqual(self.pool.release("b"), Done("released", "b"))
        self.assertEqual(self.pool.remove("b"), Done("removed", "b"))

    def test_negotiations_have_spins_and_slices(self) -> None:
        for name in ("m1", "m2"):
            self.pool.advertise(name, 600, T)
        self.pool.submit("a", "ann", T)
        self.pool.submit("b", "bob", T)
        found = self.pool.negotiate()
        self.assertEqual([(it.number, it.free) for it in found.spins], [(1, 2), (2, 0)])
        self.assertEqual([(it.user, it.size) for it in found.spins[0].slices], [("ann", 1), ("bob", 1)])
        self.assertEqual(found.offers, 2)

    def test_gangs(self) -> None:
        ports = "[ Ports = { [ Label = a; Requirements = true ], [ Label = b; Requirements = true ] } ]"
        self.assertEqual(self.pool.gang(ports), Gang(None))
        for name in ("m1", "m2"):
            self.pool.advertise(name, 600, T)
        self.assertEqual(self.pool.gang(ports), Gang(("m1", "m2")))

    def test_the_queue_and_its_users(self) -> None:
        self.assertEqual((self.pool.jobs(), self.pool.users()), (Jobs(()), Users(())))
        for name in ("m1", "m2", "m3"):
            self.pool.advertise(name, 600, T)
        self.pool.submit("s", "bob", T)
        self.pool.submit("g", "ann", "[ Ports = { [ Label = a; Requirements = true ], [ Label = b; Requirements = true ] } ]")
        self.pool.priority("eve", 5)
        self.pool.negotiate()
        self.pool.claim("g")
        self.pool.submit("i", "bob", "[ Requirements = false ]")
        self.assertEqual(self.pool.jobs().jobs, (Job("s", "bob", "matched", ("m3",)), Job("g", "ann", "claimed", ("m1", "m2")), Job("i", "bob", "idle", ())))
        self.assertEqual(self.pool.users().users, (User("eve", 5, 0, 0, 0), User("ann", 1000, 0, 0, 1), User("bob", 1000, 1, 1, 0)))
        self.assertEqual(self.pool.job("i"), Ad("[ Requirements = false ]"))
        self.refused(8, "name not known", lambda: self.pool.job("m1"))

    def test_why(self) -> None:
        self.pool.submit("j", "ann", "[ Requirements = TARGET.Memory >= 64 && true ]")
        self.assertEqual(self.pool.why("j").conjuncts, (Conjunct("TARGET.Memory >= 64", 0), Conjunct("true", 0)))
        self.pool.advertise("m", 600, "[ Memory = 64; Requirements = true ]")
        self.pool.advertise("conjunct", 600, "[ Memory = 32; Requirements = true ]")
        found = self.pool.why("j")
        self.assertEqual(found.conjuncts[0], Conjunct("TARGET.Memory >= 64", 1))
        self.assertEqual(found.verdicts, (Verdict("m", "accepted", None), Verdict("conjunct", "request", 1)))
        self.pool.submit("g", "ann", "[ Ports = { [ Label = a; Requirements = true ] } ]")
        self.refused(15, "job is a gang", lambda: self.pool.why("g"))

    def test_classes(self) -> None:
        self.assertEqual(self.pool.classes(), Classes(()))
        for job, size in (("a", 1), ("b", 2), ("c", 1)):
            self.pool.submit(job, "ann", f"[ Size = {size}; Requirements = true ]")
        self.assertEqual(self.pool.classes(), Classes((("a", "b", "c"),)))
        self.pool.advertise("m", 600, "[ Rank = TARGET.Size; Requirements = true ]")
        self.assertEqual(self.pool.classes(), Classes((("a", "c"), ("b",))))

    def test_mailboxes(self) -> None:
        with tempfile.TemporaryDirectory() as folder, Pool(PROGRAM, {"ann": f"{folder}/ann"}) as pool:
            pool.advertise("m", 600, T)
            pool.submit("j", "ann", T)
            pool.negotiate()
            with open(f"{folder}/ann", encoding="utf-8") as box:
                self.assertEqual(box.read(), "matched j m\n")
            self.assertEqual(pool.unlisten("ann"), Done("unlistened", "ann"))

    def test_refusals(self) -> None:
        pool = self.pool
        self.refused(1, "line too long", lambda: pool.eval("1" * 65536))
        self.refused(3, "wrong words", lambda: pool.priority("ann", 0))
        self.refused(5, "block too long", lambda: pool.query(f"[ A = \"{'x' * 65536}\" ]"))
        self.refused(6, "grammar", lambda: pool.eval("1 +"))
        self.refused(6, "lexical 2 at 0", lambda: pool.eval('"a'))
        self.refused(6, "nesting", lambda: pool.eval("(" * 131 + "1" + ")" * 131))
        self.refused(6, "depth", lambda: pool.eval("-" * 65 + "x"))
        self.refused(6, "frames", lambda: pool.query("[ A = { " + ", ".join(["[ ]"] * 64) + " } ]"))
        self.refused(6, "attributes", lambda: pool.query("[ " + "; ".join(f"A{i} = 1" for i in range(1025)) + " ]"))
        pool.clock(5)
        self.refused(7, "clock goes back", lambda: pool.clock(4))
        self.refused(8, "name not known", lambda: pool.withdraw("m"))
        pool.submit("j", "ann", T)
        self.refused(9, "name in use", lambda: pool.submit("j", "ann", T))
        self.refused(11, "job is idle", lambda: pool.claim("j"))
        pool.advertise("m", 600, T)
        pool.negotiate()
        pool.advertise("m", 600, "[ ]")
        self.refused(12, "stale m", lambda: pool.claim("j"))
        self.refused(13, "bad ports", lambda: pool.gang("[ Ports = { } ]"))
        self.assertEqual(pool.close(), 1)

    def test_a_full_pool_refuses(self) -> None:
        full = "".join(f"advertise m{i} 600\n{T}\n.\nsubmit j{i} ann\n{T}\n.\npriority u{i} 5\n" for i in range(10000))
        self.assertEqual(len([it for it in self.pool.script(full) if isinstance(it, Refused)]), 0)
        self.refused(10, "too many ads", lambda: self.pool.advertise("more", 600, T))
        self.refused(10, "too many jobs", lambda: self.pool.submit("more", "ann", T))
        self.refused(10, "too many users", lambda: self.pool.priority("more", 5))


class Scripts(unittest.TestCase):
    def test_a_script_is_handed_on_at_once(self) -> None:
        lines = [f"advertise m{i % 100} 600\n[ Memory = {i}; Requirements = true ]\n.\n" if i % 2 else f"evalin m1 Memory\n" for i in range(1, 10001)]
        with Pool(PROGRAM) as pool:
            replies = pool.script("".join(lines))
        self.assertEqual(len(replies), 10000)
        self.assertFalse([it for it in replies if isinstance(it, Refused)])

    def test_replies_stand_in_order(self) -> None:
        script = f"# a comment\n\nadvertise m 600\n{T}\n.\nsubmit j u\n{T}\n.\nnegotiate\nclaim j\nnosuch\nlist\n"
        with Pool(PROGRAM) as pool:
            replies = pool.script(script)
        self.assertEqual(replies[3], Claimed("j", ("m",), ()))
        self.assertEqual(str(replies[4]), "refused 2 unknown command")
        self.assertEqual(len(replies), 6)

    def test_a_block_has_to_end(self) -> None:
        with Pool(PROGRAM) as pool:
            with self.assertRaises(ValueError):
                pool.script(f"query\n{T}\n")
            with self.assertRaises(ValueError):
                pool.query("[ ]\n.\nclock 5")
            replies = pool.finish(f"query\n{T}\n")
            self.assertEqual(str(replies[0]), "refused 4 block not ended")
            self.assertEqual(pool.close(), 1)

    def test_the_status_is_given(self) -> None:
        with Pool(PROGRAM) as pool:
            self.assertEqual(pool.finish("eval 1"), [Value("1")])
            self.assertEqual(pool.close(), 0)


class Ends(unittest.TestCase):
    def program(self, text: str) -> str:
        folder = tempfile.TemporaryDirectory()
        self.addCleanup(folder.cleanup)
        path = os.path.join(folder.name, "program")
        with open(path, "w", encoding="utf-8") as it:
            it.write(f"#!/bin/sh\n{text}\n")
        os.chmod(path, stat.S_IRWXU)
        return path

    def test_a_program_that_ends_in_the_midst(self) -> None:
        with Pool(self.program("read line; echo 1; exit 6")) as pool:
            self.assertEqual(pool.eval("1"), Value("1"))
            with self.assertRaises(Ended):
                pool.eval("2")
            self.assertEqual(pool.close(), 6)

    def test_a_reply_that_breaks_off(self) -> None:
        with Pool(self.program("read line; echo ads 3; exit 6")) as pool:
            with self.assertRaises(Ended) as found:
                pool.list()
            self.assertEqual(found.exception.status, 6)

    def test_a_script_beside_a_program_that_ends(self) -> None:
        with Pool(self.program("exit 6")) as pool:
            with self.assertRaises(Ended):
                pool.script("eval 1\n" * 100000)

    def test_a_closed_pipe(self) -> None:
        pool = Pool(PROGRAM)
        pool.close()
        with self.assertRaises(Ended):
            pool.eval("1")


if __name__ == "__main__":
    unittest.main()
