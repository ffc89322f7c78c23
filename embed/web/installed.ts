// What a program does with the installed package, as `tsc --strict` reads it, and Node runs it after the types are taken out.
//     installed TYPE DESIGN
import { KataraError, load, type Answer, type Key, type Library, type Replica, type Value } from "katara";

export async function main(type: Uint8Array, design: Uint8Array): Promise<string[]> {
    const katara: Library = await load();
    const here: Replica = katara.open(type, design, 1);
    const there: Replica = katara.open(type, design, 2);
    const milk: readonly Value[] = ["milk", 2];
    const time: number = here.do("add", milk);
    there.do("add", ["milk", 3n]);
    there.doText('add "eggs" 12');
    const changed: boolean = here.merge(there.state());
    const things: Key[] = here.keys("count");
    if (!changed || here.merge(there) || things.join() !== "eggs,milk") throw new Error(`${things}`);
    there[Symbol.dispose]();
    try {
        here.merge("[]");
    } catch (error) {
        if (!(error instanceof KataraError) || error.code !== 10 || error.condition !== undefined || time !== 1) throw error;
    }
    const answer: Answer = here.ask("count", ["milk"]);
    const lines = [`count "milk" = ${answer}`, `count "eggs" = ${here.askText('count "eggs"')}`];
    here.free();
    return lines;
}
