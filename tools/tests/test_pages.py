"""The pages, the completion, the scripts and the installation."""
import re
import shutil
import subprocess
import unittest

import support
from qfix_db import program


def scripts():
    """The shell scripts of the repository."""
    made = [support.TOOLS / "completion" / "qfix"]
    for folder in (support.TOP, support.TOP / ".ci", support.TOP / "bench", support.TOOLS):
        made += [it for it in sorted(folder.iterdir()) if it.is_file() and re.match(rb"#!.*\b(ba)?sh\b", it.read_bytes()[:80])]
    return made


class Pages(unittest.TestCase):
    def test_man_page(self):
        made = subprocess.run([support.TOOLS / "make-man", "--check"], capture_output=True, text=True)
        self.assertEqual(made.returncode, 0, made.stdout)

    def test_scripts(self):
        if not shutil.which("shellcheck"):
            support.skipped("shellcheck is not on this machine")
        made = subprocess.run(["shellcheck", "-x", *scripts()], capture_output=True, text=True)
        self.assertEqual(made.returncode, 0, made.stdout)

    def test_help_of_each_command(self):
        status, said, _ = support.tool("--help")
        self.assertEqual(status, 0)
        page = (support.TOP / "docs" / "OPERATING.md").read_text()
        for command in support.ENTRY.COMMANDS:
            self.assertIn(f"\n    {command}", said)
            self.assertRegex(page, rf"(?m)^{command} +\S")
            self.assertEqual(support.tool(command, "--help")[0], 0)

    def test_completion(self):
        text = (support.TOOLS / "completion" / "qfix").read_text()
        for command in support.ENTRY.COMMANDS:
            self.assertRegex(text, rf"\b{command}\b")
            said = support.tool(command, "--help")[1]
            known = (
                set(re.findall(r"--[a-z-]+", re.search(rf"\n    {command}\) options\+=\"(.*)\"", text)[1])) if f"\n    {command})" in text else set()
            )
            usage = said[said.index("options:") :]
            self.assertEqual(set(re.findall(r"^  (?:-h, )?(--[a-z-]+)", usage, re.M)) - {"--help", "--program"}, known, command)
        bash = f"source '{support.TOOLS / 'completion' / 'qfix'}'; COMP_WORDS=(qfix-db so); COMP_CWORD=1; _qfix_db; echo \"${{COMPREPLY[*]}}\""
        self.assertEqual(subprocess.run(["bash", "-c", bash], capture_output=True, text=True).stdout, "solve\n")

    def test_nothing_from_outside(self):
        """No module takes anything but the standard library."""
        for path in (support.TOOLS / "qfix_db").glob("*.py"):
            for name in re.findall(r"^\s*(?:import|from) ([a-z_0-9]+)", path.read_text(), re.M):
                self.assertIn(name, __import__("sys").stdlib_module_names, path.name)


class Installed(support.Case):
    def test_make_install(self):
        if not shutil.which("make"):
            support.skipped("make is not on this machine")
        prefix = self.place / "prefix"
        made = subprocess.run(
            ["make", "-s", "-C", support.TOP, "install", f"PREFIX={prefix}", f"PROGRAM={support.PROGRAM}"], capture_output=True, text=True
        )
        self.assertEqual(made.returncode, 0, made.stderr)
        folder = self.folder(initial="a\n1\n", log="UPDATE t SET a = a + 7;")
        made = subprocess.run(
            [prefix / "bin" / "qfix-db", "where", folder], capture_output=True, text=True, env={"PATH": f"{prefix}/bin:/usr/bin:/bin"}
        )
        self.assertIn("p1 = 7", made.stdout, made.stderr)
        subprocess.run(["make", "-s", "-C", support.TOP, "uninstall", f"PREFIX={prefix}"], check=True)
        self.assertEqual([it for it in prefix.rglob("*") if it.is_file()], [])

    def test_no_program(self):
        self.assertRaisesRegex(Exception, "there is no program", program.find, str(self.place / "none"))


if __name__ == "__main__":
    unittest.main()
