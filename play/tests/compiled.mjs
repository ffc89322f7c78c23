// Modules of C files, made by the clang of the kit that KIT names as play/build makes katara.wasm, for tests.
import { execFileSync } from "node:child_process";
import { existsSync, mkdtempSync, readFileSync, rmSync, writeFileSync } from "node:fs";
import { tmpdir } from "node:os";
import { join } from "node:path";
import v8 from "node:v8";

const kit = process.env.KIT ?? "/opt/rattle";
// (of Node 20)
v8.setFlagsFromString("--experimental-wasm-memory64");
const target = ["--target=wasm64-unknown-unknown", "-mcpu=lime1", "-msimd128", "-O2"];

/** Why no module can be made here, or `false`. */
export const isLacking = !existsSync(join(kit, "bin/rattle-link")) && "the kit's linker isn't there";

/** The bytes of the module of a C file, with addresses of 64 bits. */
export function compiled(source, ...words) {
    const room = mkdtempSync(join(tmpdir(), "katara-"));
    const at = (name) => join(room, name);
    try {
        const clang = join(kit, "toolchain/bin/clang");
        execFileSync(clang, [...target, "-ffreestanding", ...words, "-S", "-emit-llvm", source, "-o", at("it.ll")]);
        writeFileSync(at("it.ll"), readFileSync(at("it.ll"), "utf8").replace(/^@llvm\.used.*\n/m, ""));
        execFileSync(clang, [...target, "-c", "-x", "ir", at("it.ll"), "-o", at("it.o")]);
        execFileSync(join(kit, "toolchain/bin/llvm-ar"), ["rcsD", at("it.a"), at("it.o")]);
        const link = ["--target", "wasm64-unknown-unknown", "--toolchain", join(kit, "toolchain"), "-o", at("it.wasm"), at("it.a")];
        execFileSync(join(kit, "bin/rattle-link"), link, { stdio: "ignore" });
        return readFileSync(at("it.wasm"));
    } finally {
        rmSync(room, { recursive: true });
    }
}

/** What an instance of its own exports. */
export const fresh = (bytes) => new WebAssembly.Instance(new WebAssembly.Module(bytes), {}).exports;
