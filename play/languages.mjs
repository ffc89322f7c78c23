// The languages in which `emit` writes code: the word of each, what people call it, and how its files end. (A module that doesn't know one
// refuses its word: so the page asks before it offers one.)
export const LANGUAGES = [
    { word: "ts", name: "TypeScript", end: "ts" },
    { word: "js", name: "JavaScript", end: "mjs" },
    { word: "python", name: "Python", end: "py" },
    { word: "rust", name: "Rust", end: "rs" },
    { word: "go", name: "Go", end: "go" },
];
