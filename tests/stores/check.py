"""check.py ROOT: holds the crates below ROOT, as their libraries have them, to rules.py. Exit 1 if a rule is broken."""
import pathlib
import sys

from mir import Program, Unknown, kit_functions, library_functions
from rules import Findings


def judge(root, functions):
    """What is broken in a program, given as MIR, and what was found."""
    try:
        program = Program(functions, kit_functions)
        findings = Findings(root, program).all()
    except Unknown as unknown:
        return [f'not understood: {unknown}'], []
    return findings.broken, [*findings.said, f'{len(program.functions)} functions read']


def main(root):
    broken, said = judge(root, library_functions(root))
    for line in broken or said:
        print(f'stores: {line}')
    return bool(broken)


if __name__ == '__main__':
    sys.exit(main(pathlib.Path(sys.argv[1]).resolve()))
