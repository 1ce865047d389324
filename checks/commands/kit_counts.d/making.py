"""Makes the images that the samples' tables are of, where the compiler is installed."""
import hashlib
import pathlib
import subprocess

from shared import CROSS, KIT, SAMPLES, put


def build(name, base, *words):
    """Compiles a sample and puts its code at an address, where that of the study's image stood; all that it calls is near it."""
    put("string.h", "__SIZE_TYPE__ strlen(const char *);\n")
    options = ["-march=rv32imc", "-mabi=ilp32", "-Og", f"-ffile-prefix-map={SAMPLES}=/s", f"-I{KIT}", "-I.", f"-I{SAMPLES}", *(words or ["-g"])]
    source = name if pathlib.Path(name).exists() else SAMPLES / f"{name}.c"
    subprocess.run([f"{CROSS}gcc", *options, "-c", source, "-o", "sample.o"], check=True)
    near = [f"--defsym=strlen={base + 0x400:#x}", f"-Ttext={base:#x}", "-melf32lriscv", "--entry=0", "--no-warn-rwx-segments"]
    subprocess.run([f"{CROSS}ld", *near, "sample.o", "-o", "sample.elf"], check=True)
    return pathlib.Path("sample.elf").read_bytes()


def counted(name, image):
    """The study's table of an image, over one that was built here."""
    pathlib.Path(f"{name}.elf").write_bytes(image)
    text = (SAMPLES / f"{name}.counts").read_text(encoding="utf-8")
    return put(f"{name}.counts", text.replace("@DIGEST@", hashlib.sha256(image).hexdigest()))
