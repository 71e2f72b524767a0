"""spanbase-fasta: what the program makes of its scripts, against the sequences."""
import gzip
import random
import subprocess
import tempfile
import unittest
from pathlib import Path

from support import PROGRAM, ran_here

from spanbase.cli import fasta


class Fasta(unittest.TestCase):
    def setUp(self) -> None:
        folder = tempfile.TemporaryDirectory()
        self.addCleanup(folder.cleanup)
        self.folder = Path(folder.name)

    def write(self, name: str, content: bytes) -> str:
        (self.folder / name).write_bytes(content)
        return name

    def documents(self, *words: str, show: int = 0) -> list[str]:
        """What the program says of the documents of the files, with their first letters."""
        status, _, told = ran_here(fasta.main, "out", *words, folder=self.folder)
        self.assertEqual((status, told), (0, ""))
        script = (self.folder / "out/script").read_bytes()
        told = subprocess.run([PROGRAM], input=script, capture_output=True, cwd=self.folder / "out", check=True)
        return [line for line in told.stdout.decode().splitlines() if line.startswith("ok ")][1:]

    def test_fasta(self):
        rng = random.Random(31)
        genome = bytes(rng.choices(b"ACGT", k=1000))
        lines = b"\r\n".join(genome[at : at + 60] for at in range(0, 1000, 60))
        file = self.write("a.fa", b">gi|1|x a genome\r\n" + lines + b"\r\n\r\n>empty\n>7up\nAC\nGT\n>7up again\nTT")
        head = genome[:32].decode()
        wanted = [f'ok gi_1_x 1000 "{head}"', 'ok empty 0 ""', 'ok _7up 4 "ACGT"', 'ok _7up.2 2 "TT"']
        self.assertEqual(self.documents(file), wanted)
        self.assertIn(b"# >gi|1|x a genome\n", (self.folder / "out/script").read_bytes())
        self.assertEqual(self.documents("--save", "kept", file)[-1], f"ok 4 {self.nodes()}")

    def nodes(self) -> int:
        return int.from_bytes((self.folder / "out/kept").read_bytes()[5:13], "big")

    def test_fastq(self):
        reads = b"@r1 first\nACGT\n+\n@!!!\n@r2\nAC\nGTT\n+r2\n>@\n@+>\n"
        file = self.write("reads.fq.gz", gzip.compress(reads))
        self.assertEqual(self.documents(file), ['ok r1 4 "ACGT"', 'ok r2 5 "ACGTT"'])

    def test_long_and_odd_names(self):
        file = self.write("names.fa", b">" + b"n" * 80 + b"\nA\n>" + b"n" * 70 + b"\nC\n>\nG\n>all.sequences\nT\n")
        names = [line.split(" ")[1] for line in self.documents(file)]
        self.assertEqual(names, ["n" * 64, "n" * 62 + ".2", "sequence", "all.sequences.2"])

    def test_bad_input(self):
        cases = [
            (self.write("text", b"hello\n"), "text, line 1: a file of sequences begins with > or @"),
            (self.write("short.fq", b"@r\nACGT\n+\n!!\n"), "short.fq, line 4: the sequence has 4 letters and 2 qualities"),
            (self.write("more.fq", b"@r\nAC\n+\n!!\n!!\n"), "more.fq, line 5: a record of FASTQ begins with @"),
            (self.write("cut.gz", gzip.compress(b">a\n" + bytes(range(65, 91)) * 90)[:-9]), "the packed file is damaged"),
            ("nowhere", "nowhere: there is no such file"),
            (".", ".: is a folder"),
        ]
        for file, said in cases:
            with self.subTest(file=file):
                status, out, told = ran_here(fasta.main, "out", file, folder=self.folder)
                self.assertEqual((status, out, told.count("\n")), (2, b"", 1), told)
                self.assertIn(said, told)
                self.assertEqual(list((self.folder / "out").iterdir()), [])
        (self.folder / "out/mine").write_bytes(b"mine")
        status, _, told = ran_here(fasta.main, "out", self.write("a.fa", b">a\nA\n"), folder=self.folder)
        self.assertEqual((status, told), (2, "spanbase-fasta: out has files that the tool didn't make, such as mine; name a new folder\n"))

    def test_standard_input(self):
        packed = gzip.compress(b">a\nAC\n")
        self.assertEqual(ran_here(fasta.main, "out", "-", stdin=packed, folder=self.folder)[0], 0)
        self.assertEqual((self.folder / "out/sequences").read_bytes(), b"AC")


if __name__ == "__main__":
    unittest.main()
