"""Lines of LLVM modules: those that narrow_pointers.py rewrites or leaves, and those at which it must stop."""

import subprocess
import sys
import tempfile
from pathlib import Path

PROGRAM = Path(__file__).resolve().parents[1] / "narrow_pointers.py"

REWRITTEN = {
    "  %a = load ptr, ptr %p, align 8": ["  %load.1 = load i64, ptr %p, align 8", "  %a = inttoptr i64 %load.1 to ptr"],
    "  %a = load ptr, ptr %p, align 8, !noundef !3": [
        "  %load.1 = load i64, ptr %p, align 8, !noundef !3",
        "  %a = inttoptr i64 %load.1 to ptr",
    ],
    "  store ptr @f, ptr %p, align 8": ["  %store.1 = ptrtoint ptr @f to i64", "  store i64 %store.1, ptr %p, align 8"],
    "  %a = alloca ptr, align 8": ["  %a = alloca i64, align 8"],
    "  %a = load { i64, ptr }, ptr %p, align 8": [
        "  %load.1 = load { i64, i64 }, ptr %p, align 8",
        "  %part.1.0 = extractvalue { i64, i64 } %load.1, 0",
        "  %half.1 = insertvalue { i64, ptr } poison, i64 %part.1.0, 0",
        "  %part.1.1 = extractvalue { i64, i64 } %load.1, 1",
        "  %ptr.1.1 = inttoptr i64 %part.1.1 to ptr",
        "  %a = insertvalue { i64, ptr } %half.1, ptr %ptr.1.1, 1",
    ],
    "  %a = ptrtoaddr ptr %p to i64": ["  %a = ptrtoint ptr %p to i64"],
    'target triple = "wasm64-unknown-unknown"': ['target triple = "wasm32-unknown-unknown"'],
}
LEFT = [
    "  %a = load i64, ptr %p, align 8",
    "  %a = load <16 x i8>, ptr %p, align 1",
    "  store { i64, i64 } %a, ptr %p, align 8",
    "  store <4 x i32> <i32 1, i32 2, i32 3, i32 4>, ptr %p, align 16",
    "  %a = alloca [1864 x i8], align 8",
    "  %a = getelementptr inbounds nuw i8, ptr %p, i64 24",
    "  %a = getelementptr inbounds [4 x i64], ptr @words, i64 0, i64 %k",
    "  %a = call { i64, ptr } @rattle_alloc(i64 %size, i64 8)",
    "  %a = insertvalue { ptr, i64 } %b, ptr %p, 0",
    "@words = private constant [4 x i64] [i64 1, i64 2, i64 3, i64 4], align 8",
    "declare void @f(ptr sret([32 x i8]), ptr, i64)",
]
UNKNOWN = [
    "  %a = load ptr, ptr getelementptr (i8, ptr @x, i64 8), align 8",
    "  %a = load volatile ptr, ptr %p, align 8",
    "  %a = load atomic ptr, ptr %p seq_cst, align 8",
    "  %a = load { i64, ptr, i64 }, ptr %p, align 8",
    "  %a = load <2 x ptr>, ptr %p, align 16",
    "  store ptr getelementptr (i8, ptr @x, i64 8), ptr %p, align 8",
    "  store { i64, ptr } %a, ptr %p, align 8",
    "  %a = alloca { ptr, i64 }, align 8",
    "  %a = alloca [4 x ptr], align 8",
    "  %a = getelementptr inbounds { ptr, i64 }, ptr %p, i64 0, i32 1",
    "  %a = getelementptr inbounds ptr, ptr %p, i64 1",
    "  %a = cmpxchg ptr %p, ptr %old, ptr %new seq_cst seq_cst",
    "  call void @f(ptr sret({ i64, ptr }) %p)",
    "@table = private constant [2 x ptr] [ptr @f, ptr @g], align 8",
    "@one = internal global ptr null, align 8",
    "%pair = type { ptr, i64 }",
]


def ran(line: str) -> "tuple[int, list[str]]":
    with tempfile.TemporaryDirectory() as folder:
        source, target = Path(folder, "source"), Path(folder, "target")
        source.write_text(line)
        words = [sys.executable, str(PROGRAM), str(source), str(target)]
        status = subprocess.run(words, stderr=subprocess.DEVNULL).returncode
        return status, target.read_text().split("\n") if target.exists() else []


def main() -> None:
    for line, wanted in {**REWRITTEN, **{line: [line] for line in LEFT}}.items():
        assert ran(line) == (0, wanted), (line, ran(line))
    for line in UNKNOWN:
        assert ran(line) == (1, []), (line, ran(line))
    print(f"narrow_pointers.py: {len(REWRITTEN)} forms rewritten, {len(LEFT)} left, {len(UNKNOWN)} refused")


if __name__ == "__main__":
    main()
