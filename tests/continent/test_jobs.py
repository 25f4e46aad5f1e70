"""What the scripts of examples/continent do with each answer and each failure, with a stand-in for `drain`."""

import errno
import os
import re
import shutil
import signal
import subprocess
import time
import unittest

from job_case import ENGINES, JobCase, plain, reports_of
from scripts import EXAMPLE, SLOPES


def heed_interrupts() -> None:
    """A shell has what it starts in the background ignore interrupts."""
    signal.signal(signal.SIGINT, signal.SIG_DFL)


class Jobs(JobCase):
    """One window, and all by each engine."""

    def hold_up(self) -> int:
        """Waits until a program that hangs reads its pipe; it ends when the pipe is closed. Before that a shell that starts it might take
        the signal."""
        until = time.monotonic() + 60
        while True:
            try:
                return os.open(self.out / "hang", os.O_WRONLY | os.O_NONBLOCK)
            except OSError as error:
                if error.errno != errno.ENXIO or time.monotonic() > until:
                    raise
            time.sleep(0.02)

    def test_answers(self) -> None:
        """An answer is kept, and its window isn't judged again."""
        for answer, line in [("0 accepted rows=1", "accepted rows=1\n"), ("1 rejected rule=4", "rejected rule=4\n")]:
            with self.subTest(answer):
                shutil.rmtree(self.out / "lines", ignore_errors=True)
                shutil.rmtree(self.out / "reports", ignore_errors=True)
                self.answer(answer)
                self.assertEqual(self.job(), 0)
                self.assertEqual(self.kept(), {"lines/r1c1.txt": line, "reports/r1c1.txt": "report\n"})
                self.assertEqual(len(self.calls()), 1)
                self.answer("3 failed ReadFailed")
                self.assertEqual(self.job(), 0)
                self.assertEqual(self.calls(), [])

    def test_failures(self) -> None:
        """A failure leaves nothing, and the next run tries again."""
        for answer in ("3 failed OutOfMemory", "3", "2", "137", "101 panicked", "0", "1"):
            with self.subTest(answer):
                self.answer(answer)
                self.assertEqual(self.job(), 3)
                self.assertEqual(self.kept(), {})
        self.assertEqual(len(self.calls()), 7)
        self.answer("0 accepted rows=1")
        self.assertEqual(self.job(), 0)
        self.assertEqual(len(self.kept()), 2)

    def test_rasters_that_are_missing(self) -> None:
        (self.folder / "rasters/acc.bil").unlink()
        run = self.run_script("job.sh", *self.lines[4].split())
        self.assertEqual((run.returncode, run.stdout), (3, ""))
        self.assertIn("r1c1: no acc.bil", run.stderr)
        self.assertEqual((self.kept(), self.calls()), ({}, []))

    def test_words(self) -> None:
        self.job()
        (words,) = self.calls()
        tiles = " ".join(
            str(self.folder / f"tiles/{name}.hgt") for name in ("N01E001", "N01E002", "N00E001", "N00E002")
        )
        work = self.out / "work"
        expected = f"--inner nesw {tiles}"
        self.assertEqual(
            plain(words),
            f"window --side 5 --products {work}/r1c1.cut --box 1,1,6,6 --report {work}/r1c1/report {expected}",
        )

    def test_words_of_one_window_with_sinks(self) -> None:
        """A window with no inner side, with a list of sinks, cut below another folder."""
        tile = self.folder / "tiles/N00E002.hgt"
        (self.folder / "sinks.txt").write_text("9 9\n1 1\n")
        keep = self.folder / "drain-keep"
        keep.write_text(
            f'#!/bin/sh\ncp "{self.folder}"/cuts/w.cut.*/sinks.txt "{self.folder}/kept"\nexec "{self.program}" "$@"\n'
        )
        keep.chmod(0o755)
        env = {"SINKS": str(self.folder / "sinks.txt"), "CUTS": str(self.folder / "cuts"), "DRAIN": str(keep)}
        run = self.run_script("job.sh", "w", "0,0,5,5", "-", "8,8,5,5", str(tile), **env)
        self.assertEqual((run.returncode, run.stderr), (0, ""))
        (words,) = map(plain, self.calls())
        cut = self.folder / "cuts/w.cut"
        self.assertTrue(
            words.startswith(f"window --side 5 --products {cut} --box 0,0,5,5 --report {self.out}/work/w/report")
        )
        self.assertTrue(words.endswith(f" --sinks {cut}/sinks.txt {tile}"))
        self.assertEqual((self.folder / "kept").read_text(), "1 1\n\n")
        self.assertEqual(list((self.folder / "cuts").iterdir()), [])

    def test_jobs_that_share_a_folder_for_cut_rasters_share_no_raster(self) -> None:
        """Of another plan, or of the same window sent twice."""
        for _ in range(2):
            shutil.rmtree(self.out / "lines", ignore_errors=True)
            self.assertEqual(self.job(CUTS=str(self.folder / "cuts")), 0)
        first, second = (re.search(r"--products (\S+)", words)[1] for words in self.calls())
        self.assertNotEqual(first, second)
        self.assertEqual(plain(first), plain(second))

    def test_what_is_not_set(self) -> None:
        """It is a failure, never a status of an answer."""
        for script, names in (
            ("job.sh", ("DRAIN", "SIDE", "RASTERS", "OUT")),
            ("merge.sh", ("DRAIN", "RASTERS", "OUT")),
        ):
            for name in names:
                run = self.run_script(script, *self.lines[4].split(), **{name: ""})
                self.assertEqual(
                    (run.returncode, run.stdout, "missing" in run.stderr), (3, "", True), f"{script} {name}"
                )
        (self.out / "windows.txt").unlink()
        self.assertEqual(self.run_script("merge.sh").returncode, 3)
        for count, last in (("2", "2"), ("2", "3")):
            env = {"SLURM_ARRAY_TASK_COUNT": count, "SLURM_ARRAY_TASK_MAX": last}
            self.assertEqual(self.run_script("slurm.sh", **env).returncode, 3, "no plan, or a gap between tasks")
        self.assertEqual(self.calls(), [])

    def test_half_an_answer(self) -> None:
        """A line, a report or a record that is missing leaves no answer."""
        for lost in ("reports", "lines", "inputs"):
            self.job()
            self.calls()
            (self.out / lost / "r1c1.txt").unlink()
            said = "no answer yet" if lost == "inputs" else f"{self.out}/{lost}/r1c1.txt: No such file or directory"
            self.assertIn(f"r1c1: {said}\n", self.run_script("merge.sh").stderr)
            self.calls()
            self.assertEqual(self.job(), 0)
            self.assertEqual((len(self.calls()), len(self.kept())), (1, 2))

    def test_signals(self) -> None:
        """A job that is stopped leaves no answer; one that is killed leaves folders, which no other job takes."""
        os.mkfifo(self.out / "hang")
        for number, status, left in [
            (signal.SIGTERM, 143, set()),
            (signal.SIGINT, -signal.SIGINT, set()),
            (signal.SIGKILL, -9, {"work/r1c1", "work/r1c1.cut"}),
        ]:
            with self.subTest(number):
                words = [EXAMPLE / "job.sh", *self.lines[4].split()]
                job = subprocess.Popen(
                    words, env={**self.env, "answer": "hang"}, start_new_session=True, preexec_fn=heed_interrupts
                )
                self.addCleanup(os.close, self.hold_up())
                os.killpg(job.pid, number)
                self.assertEqual(job.wait(60), status)
                self.assertEqual(set(self.kept()), left)
                self.calls()
        self.assertEqual(self.job(), 0)
        self.assertEqual(set(self.kept()), {"lines/r1c1.txt", "reports/r1c1.txt", "work/r1c1", "work/r1c1.cut"})

    def test_merge(self) -> None:
        """All reports are handed over; windows without one are named."""
        sinks = self.folder / "list of sinks"
        sinks.write_text("1 1\n")
        for window in (0, 2, 4):
            self.job(window, SINKS=str(sinks))
        self.answer("2 refused BadSide")
        self.job(7, SINKS=str(sinks))
        self.calls()
        run = self.run_script("merge.sh", SINKS=str(sinks))
        reports = " ".join(f"{self.out}/reports/{name}.txt" for name in ("r0c0", "r0c2", "r1c1"))
        self.assertEqual((run.returncode, run.stdout), (0, "accepted of all\n"))
        self.assertEqual(self.calls(), [f"merge --sinks {sinks} {reports}"])
        named = {line.split(": ")[0]: line.split(": ")[1] for line in run.stderr.splitlines()}
        self.assertEqual(
            named,
            {
                **dict.fromkeys(("r0c1", "r1c0", "r1c2", "r2c0", "r2c2"), "no answer yet"),
                "r2c1": "refused BadSide",
                "slopes": "square cells",
            },
        )

    def judge_all(self, run: subprocess.CompletedProcess[str], said: str = SLOPES) -> None:
        self.assertEqual((run.returncode, run.stderr), (0, said))
        self.assertEqual(reports_of(self.out), [f"r{i}c{j}.txt" for i in range(3) for j in range(3)])

    def test_a_loop_of_the_shell(self) -> None:
        run = subprocess.run(ENGINES["loop"], env=self.env, capture_output=True, text=True, check=False)
        self.judge_all(run)
        self.assertEqual(run.stdout, "accepted of all\n")

    @unittest.skipUnless(shutil.which("parallel"), "GNU parallel isn't installed")
    def test_parallel(self) -> None:
        run = self.run_script("parallel.sh", "3")
        self.judge_all(run)
        self.assertEqual((run.stdout, len(self.calls())), ("accepted of all\n", 10))
        self.answer("3 failed OutOfMemory")
        (self.out / "lines/r2c2.txt").unlink()
        self.assertEqual(self.run_script("parallel.sh", "3").returncode, 3)
        self.assertEqual(len(self.calls()), 2)

    def test_tasks_of_an_array(self) -> None:
        tasks = {"SLURM_ARRAY_TASK_COUNT": "4", "SLURM_ARRAY_TASK_MAX": "4"}
        for task in range(1, 5):
            run = self.run_script("slurm.sh", **tasks, SLURM_ARRAY_TASK_ID=str(task))
            self.assertEqual((run.returncode, run.stderr), (0, ""))
            self.assertEqual(len(self.calls()), 3 if task == 1 else 2)
        self.judge_all(run, "")
        (self.out / "lines/r0c0.txt").unlink()
        self.answer("3 failed OutOfMemory")
        self.assertEqual(self.run_script("slurm.sh", **tasks, SLURM_ARRAY_TASK_ID="1").returncode, 3)

    @unittest.skipUnless(shutil.which("snakemake"), "snakemake isn't installed")
    def test_snakemake(self) -> None:
        for calls in (10, 0):
            self.assertEqual(self.run_engine("snakemake")[0], "accepted of all\n")
            self.assertEqual((len(reports_of(self.out)), len(self.calls())), (9, calls))


if __name__ == "__main__":
    unittest.main()
