"""Programs that do what lines say with the classes of `emit`, one for each language: for beside.py.

`make(LANGUAGE, CODE, TYPES)` gives what makes the command for a type. TYPES are the names with the sorts of operations and queries; the code
of a type is CODE/NAME.EXTENSION. The lines are `begin N`, `do REPLICA NUMBER ARGUMENTS`, `ask REPLICA NUMBER ARGUMENTS`, `ship REPLICA WORD`,
`deliver WORD REPLICA`, `show REPLICA` and `load HEX`; and for packets `shares N`, `share REPLICA`, `keep REPLICA PLACE`, `packet REPLICA PLACE`
(beyond what is kept at the place, or at 0 nothing), `take REPLICA NUMBER`, `spoiled REPLICA HEX`, `restart REPLICA PLACE`, `reshare HEX` and
`plain REPLICA`.
"""
import os
import re
import subprocess
import sys

HERE = os.path.dirname(os.path.abspath(__file__))


def make(language, code, types):
    counts = {name: [str(len(ops)), str(len(queries))] for name, ops, queries in types}
    if language == "js":
        return lambda name: ["node", os.path.join(HERE, "driver.mjs"), os.path.abspath(f"{code}/{name}.mjs"), *counts[name]]
    if language == "python":
        return lambda name: [sys.executable, os.path.join(HERE, "driver.py"), f"{code}/{name}.py", *counts[name]]
    made = {"rust": rust, "go": go}[language](code, types)
    return lambda name: [made, name]


def text_of(path):
    with open(path, encoding="utf-8") as file:
        return file.read()


def write(path, text):
    os.makedirs(os.path.dirname(path), exist_ok=True)
    with open(path, "w", encoding="utf-8") as file:
        file.write(text)


def run(words, folder):
    done = subprocess.run(words, cwd=folder, capture_output=True, text=True)
    if done.returncode != 0:
        sys.exit(done.stdout + done.stderr)


# Rust: one program with a module for each type.
def rust(code, types):
    folder = os.path.abspath(f"{code}/beside_rust")
    main = text_of(os.path.join(HERE, "driver.rs"))
    arms = ""
    for name, ops, queries in types:
        text = text_of(f"{code}/{name}.rs")
        write(f"{folder}/{name}.rs", text)
        main += f"#[allow(dead_code)]\nmod {name};\n" + rust_type(name, text, ops, queries)
        arms += f'        "{name}" => drive::<{name}::{class_of(text)}>(),\n'
    main += "fn main() {\n    match std::env::args().nth(1).unwrap().as_str() {\n" + arms + '        other => panic!("{other}"),\n    }\n}\n'
    write(f"{folder}/main.rs", main)
    run(["rustc", "--edition", "2021", "-D", "warnings", "-C", "debug-assertions=on", "main.rs", "-o", "beside"], folder)
    return f"{folder}/beside"


def class_of(text):
    return re.search(r"^impl fmt::Debug for (\w+)", text, re.M)[1]


def fields_of(text, head):
    """The fields of the class of what has changed."""
    body = text[re.search(head, text).end() :]
    return re.findall(r"^\s+(?:pub )?(\w+):? .*$", "\n".join(it for it in body[: body.index("\n}")].split("\n") if "//" not in it), re.M)


def rust_type(name, text, ops, queries):
    methods = re.findall(r"^    pub fn (\w+)\(&(?:mut )?self(.*?)\) -> (.*) \{$", text, re.M)
    names = [it[0] for it in methods]
    methods = methods[names.index("clock") + 1 : names.index("merge")]
    get = {
        "int": "a[{}].parse().unwrap()",
        "nat": "a[{}].parse().unwrap()",
        "name": "a[{}].trim_matches('\"')",
        "bool": 'a[{}] == "true"',
    }
    args = lambda sorts: ", ".join(get[it].format(i) for i, it in enumerate(sorts))
    does = "".join(f"            {i} => self.{methods[i][0]}({args(sorts)}).unwrap(),\n" for i, (_, sorts) in enumerate(ops))
    asks = ""
    for i, (_, sorts, sort) in enumerate(queries):
        method, _, answer = methods[len(ops) + i]
        call = f"self.{method}({args(sorts)})" + ".unwrap()" * answer.startswith("Result")
        asks += f'            {i} => format!("{{:?}}", {call}),\n'
    keys = "".join(f', format!("{{:?}}", self.{it[0]}().collect::<Vec<_>>())' for it in methods[len(ops) + len(queries) :])
    changed = "".join(f', format!("{{:?}}", changed.{it})' for it in fields_of(text, r"pub struct \w+Changes_?\d* \{"))
    return f"""impl Replica for {name}::{class_of(text)} {{
    fn fresh(number: u8) -> Self {{ Self::new(number).unwrap() }}
    fn act(&mut self, at: usize, a: &[&str]) {{
        let _ = a;
        match at {{
{does}            _ => panic!(),
        }}
    }}
    fn answer(&self, at: usize, a: &[&str]) -> String {{
        let _ = a;
        match at {{
{asks}            _ => panic!(),
        }}
    }}
    fn join(&mut self, other: &Self) -> String {{
        let changed = self.merge(other);
        line(&["\\"changed\\"".to_string(){changed}])
    }}
    fn less(&self, known: &Self) -> Self {{ self.difference(known) }}
    fn text(&self) -> String {{ self.state() }}
    fn all_keys(&self) -> String {{ line(&["\\"keys\\"".to_string(){keys}]) }}
    fn read(text: &str) -> Option<Self> {{ Self::from_state(text).ok() }}
    fn shared(&self) -> Result<String, String> {{ self.share().map_err(problem) }}
    fn marked(&self) -> Result<String, String> {{ self.marks().map_err(problem) }}
    fn beyond(&self, known: &Self) -> Result<String, String> {{ self.packet(known).map_err(problem) }}
    fn join_packet(&mut self, text: &str) -> Result<(), String> {{ self.merge_packet(text).map(|_| ()).map_err(problem) }}
    fn read_share(text: &str) -> Result<Self, String> {{ Self::from_share(text).map_err(problem) }}
}}
"""


# Go: one program with a package for each type.
def go(code, types):
    folder = os.path.abspath(f"{code}/beside_go")
    head, body, arms = "", text_of(os.path.join(HERE, "driver.go")), ""
    for name, ops, queries in types:
        text = text_of(f"{code}/{name}.go")
        write(f"{folder}/p_{name}/{name}.go", text)
        head += f'import p_{name} "beside/p_{name}"\n'
        body += go_type(name, text, ops, queries)
        arms += f'\tcase "{name}":\n\t\tdrive(new_{name}, read_{name}, reshare_{name})\n'
    first, rest = body.split("\n\n", 1)
    main = f"{first}\n\n{head}\n{rest}func main() {{\n\tswitch os.Args[1] {{\n{arms}\t}}\n}}\n"
    write(f"{folder}/main.go", main)
    write(f"{folder}/go.mod", "module beside\n\ngo 1.18\n")
    run(["go", "build", "-o", "beside", "."], folder)
    return f"{folder}/beside"


def go_type(name, text, ops, queries):
    kind = re.search(r"^func New\(replica int\) \(\*(\w+), error\)", text, re.M)[1]
    methods = re.findall(r"^func \(r \*\w+\) (\w+)\((.*?)\) (.*) \{$", text, re.M)
    names = [it[0] for it in methods]
    methods = methods[names.index("Clock") + 1 : names.index("Merge")]
    get = {"int": "number(a[{}])", "nat": "number(a[{}])", "name": "strings.Trim(a[{}], `\"`)", "bool": 'a[{}] == "true"'}
    args = lambda sorts: ", ".join(get[it].format(i) for i, it in enumerate(sorts))
    does = "".join(f"\tcase {i}:\n\t\tmust(d.r.{methods[i][0]}({args(sorts)}))\n" for i, (_, sorts) in enumerate(ops))
    asks = ""
    for i, (_, sorts, _) in enumerate(queries):
        method, _, answer = methods[len(ops) + i]
        got = "it, err :=" if "error" in answer else "it :="
        asks += f"\tcase {i}:\n\t\t{got} d.r.{method}({args(sorts)})\n" + "\t\tmust(err)\n" * ("error" in answer) + "\t\treturn word(it)\n"
    keys = "".join(f", d.r.{it[0]}()" for it in methods[len(ops) + len(queries) :])
    changed = "".join(f", changed.{it}" for it in fields_of(text, r"type \w+Changes_?\d* struct \{"))
    return f"""
type d_{name} struct{{ r *p_{name}.{kind} }}

func (d d_{name}) act(at int, a []string) {{
	switch at {{
{does}	}}
}}
func (d d_{name}) answer(at int, a []string) string {{
	switch at {{
{asks}	}}
	panic(at)
}}
func (d d_{name}) join(other replica) string {{
	changed := d.r.Merge(other.(d_{name}).r)
	return word([]any{{"changed"{changed}}})
}}
func (d d_{name}) less(known replica) replica {{ return d_{name}{{d.r.Difference(known.(d_{name}).r)}} }}
func (d d_{name}) text() string              {{ return d.r.State() }}
func (d d_{name}) keys() string              {{ return word([]any{{"keys"{keys}}}) }}
func (d d_{name}) copy() replica             {{ return d_{name}{{d.r.Clone()}} }}
func (d d_{name}) same(other replica) bool   {{ return d.r.Equal(other.(d_{name}).r) }}
func (d d_{name}) share() (string, string) {{
	text, err := d.r.Share()
	return text, problem_{name}(err)
}}
func (d d_{name}) marks() (string, string) {{
	text, err := d.r.Marks()
	return text, problem_{name}(err)
}}
func (d d_{name}) packet(known replica) (string, string) {{
	text, err := d.r.Packet(known.(d_{name}).r)
	return text, problem_{name}(err)
}}
func (d d_{name}) take(text string) string {{
	_, err := d.r.MergePacket(text)
	return problem_{name}(err)
}}
func reshare_{name}(text string) (replica, string) {{
	it, err := p_{name}.FromShare(text)
	return d_{name}{{it}}, problem_{name}(err)
}}
func problem_{name}(err error) string {{
	switch {{
	case errors.Is(err, p_{name}.ErrGap):
		return "gap"
	case errors.Is(err, p_{name}.ErrMarks):
		return "marks"
	case errors.Is(err, p_{name}.ErrState):
		return "state"
	}}
	must(err)
	return ""
}}
func new_{name}(number int) replica {{
	it, err := p_{name}.New(number)
	must(err)
	return d_{name}{{it}}
}}
func read_{name}(text string) replica {{
	it, err := p_{name}.FromState(text)
	if err != nil {{
		return nil
	}}
	return d_{name}{{it}}
}}
"""
