"""evaluator SOURCE INPUT OUTPUT [--derive | --ordinary]: prints what `wcc eval` must print, and ends with its status."""
import sys
from pathlib import Path

if __package__:
    from . import answer, ordinary, with_deep_stack
else:
    sys.path.insert(0, str(Path(__file__).resolve().parent.parent))
    from evaluator import answer, ordinary, with_deep_stack


def main(source, data, output, *flag):
    files = Path(source).read_bytes(), Path(data).read_bytes()
    result = with_deep_stack(lambda: ordinary.answer(*files) if flag == ("--ordinary",) else answer(*files, derive=flag == ("--derive",)))
    if result.output is not None:
        Path(output).write_bytes(result.output)
    print(result.line)
    return result.status


if __name__ == "__main__":
    sys.exit(main(*sys.argv[1:]))
