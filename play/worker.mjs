// The page's calls, one after the other, in a thread of their own, so that the page goes on meanwhile and can end it. The first message is
// the compiled module, each later one a call.
import { call } from "./call.mjs";

let module;

function answer({ words, files }) {
    const began = performance.now();
    const since = () => performance.now() - began;
    try {
        const { status, output, errors } = call(module, words, files);
        return { status, output: new TextDecoder().decode(output), errors, time: since() };
    } catch (error) {
        return { status: 70, output: "", errors: `the module stopped: ${error.message}\n`, time: since() };
    }
}

self.onmessage = ({ data }) => {
    if (data instanceof WebAssembly.Module) module = data;
    else self.postMessage({ id: data.id, ...answer(data) });
};
