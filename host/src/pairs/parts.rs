//! Parts (15): depth 8 and 9, 16 and 17 entries, at each place that forms a part. Joining deepens nothing; an index forms one entry,
//! and what taking out splits has at most a struct's 16 members.
use super::Pair;

const ENTRIES: [usize; 2] = [16, 17];

pub fn all() -> Vec<Pair> {
    let mut found = vec![index()];
    found.extend(targets());
    found.push(taking_out());
    found.push(both("entries: an argument in an expression", (0, 15), sum_of("arg 1 -", "FunctionArgument 0", "")));
    found.push(both("entries: a local in an expression", (0, 15), sum_of("local 1", "LocalVariable 0", "Load")));
    found.push(both("entries: a total of a global", (0, 15), total_of_global));
    found.push(both("entries: an if's join", (0, 15), |n| branches("If 0 0 1", n)));
    found.push(both("entries: a switch's join", (0, 15), |n| branches("Switch 0 [1:0 default:1]", n)));
    found.push(both("entries: the join of a loop's first pass", (0, 15), |n| branches("Loop 0 1 -", n)));
    found.push(both("entries: the join of a loop's turn", (14, 15), turn));
    found.push(both("entries: a function's total", (0, 15), total));
    found.push(both("entries: a called function's total", (0, 15), called_total));
    found
}

fn both(name: &str, answers: (u16, u16), listing: impl Fn(usize) -> String) -> Pair {
    Pair::new(name, answers, &listing(ENTRIES[0]), &listing(ENTRIES[1]))
}

/// Nine arrays in each other over a scalar: type n is n of them.
fn arrays() -> String {
    (0..9).map(|t| format!("type Array {t} 20\n")).collect()
}

/// So many indexes into expression 0, of type 9; the last is expression `depth`.
fn steps(depth: usize) -> String {
    (0..depth).map(|n| format!("expr {} AccessIndex {n} 0\n", 8 - n)).collect()
}

/// {i: part} before the base is visited.
fn index() -> Pair {
    let listing = |depth: usize| {
        let head = format!("type Scalar\n{}fn function 0 -\narg 9 -\n", arrays());
        format!("{head}expr 9 FunctionArgument 0\n{}block\nstmt Return {depth}\nrequest 0 all\n", steps(depth))
    };
    Pair::new("depth: an index", (0, 15), &listing(8), &listing(9))
}

/// The path of each statement that resolves a variable.
fn targets() -> Vec<Pair> {
    let statement = |kind: &str, depth: usize| {
        let value = depth + 1;
        let statement = kind.replace('P', &depth.to_string()).replace('V', &value.to_string());
        let head = format!("type Scalar\n{}global 9\nfn function - -\n", arrays());
        let body = format!("expr 9 GlobalVariable 0\n{}expr 0 ZeroValue\nblock\nstmt {statement}\n", steps(depth));
        format!("{head}{body}request 0 none 0=all\n")
    };
    let kinds = [
        "Store P V",
        "Atomic P V -",
        "ImageStore P V - V",
        "RayQuery P",
        "WorkGroupUniformLoad V P",
        "SubgroupBallot P -",
        "SubgroupGather BroadcastFirst V P",
        "SubgroupCollectiveOperation V P",
    ];
    // the pointer's own visit would form the same part: it is asked after the path
    kinds.map(|k| Pair::new(format!("depth: the path of {k}"), (0, 15), &statement(k, 8), &statement(k, 9))).into()
}

/// A column taken out of a matrix, which stands this deep in structs and is asked whole, leaves its columns' components: two more.
fn taking_out() -> Pair {
    let listing = |depth: usize| {
        let structs: String = (0..depth).map(|n| format!("type Struct [{}:-]\n", n + 2)).collect();
        let last = depth + 2;
        let steps: String = (0..depth).map(|n| format!("expr {} AccessIndex {n} 0\n", last - n - 1)).collect();
        let (column, value) = (depth + 1, depth + 2);
        format!(
            "type Scalar\ntype Vector 2\ntype Matrix 2 2\n{structs}global {last}\nfn function - -\nexpr {last} GlobalVariable 0\n{steps}\
             expr 1 AccessIndex {depth} 0\nexpr 1 ZeroValue\nblock\nstmt Store {column} {value}\nrequest 0 none 0=all\n"
        )
    };
    Pair::new("depth: what taking out leaves", (0, 15), &listing(6), &listing(7))
}

const HEAD: &str = "type Scalar\ntype Array 0 20\ntype Opaque\n";

/// A function that composes the first elements of a variable, in two lists.
fn sum_of(variable: &'static str, kind: &'static str, load: &'static str) -> impl Fn(usize) -> String {
    move |count| {
        let step = if load.is_empty() { 1 } else { 2 };
        let element = |i: usize| {
            let at = 1 + step * i;
            let loads = if load.is_empty() { String::new() } else { format!("expr 0 {load} {at}\n") };
            format!("expr 0 AccessIndex 0 {i}\n{loads}")
        };
        let elements: String = (0..count).map(element).collect();
        let value = |i: &usize| (step * (i + 1)).to_string();
        let list = |from: usize, to: usize| (from..to).collect::<Vec<_>>().iter().map(value).collect::<Vec<_>>().join(" ");
        let all = 1 + step * count;
        format!(
            "{HEAD}fn function 2 -\n{variable}\nexpr 1 {kind}\n{elements}expr 2 Compose [{}]\nexpr 2 Compose [{}]\n\
             expr 2 Compose [{all} {}]\nblock\nstmt Return {}\nrequest 0 all\n",
            list(0, 8),
            list(8, count),
            all + 1,
            all + 2
        )
    }
}

/// Two functions that read elements of one global, asked one after the other.
fn total_of_global(count: usize) -> String {
    let reader = |from: usize, to: usize| {
        let loads: String = (from..to).map(|i| format!("expr 0 AccessIndex 0 {i}\nexpr 0 Load {}\n", 1 + 2 * (i - from))).collect();
        let values: Vec<String> = (from..to).map(|i| (2 + 2 * (i - from)).to_string()).collect();
        let last = 1 + 2 * (to - from);
        format!("fn function 2 -\nexpr 1 GlobalVariable 0\n{loads}expr 2 Compose [{}]\nblock\nstmt Return {last}\n", values.join(" "))
    };
    format!("{HEAD}global 1\n{}{}request 0 all\nrequest 1 all\n", reader(0, 8), reader(8, count))
}

/// A function of one array, with elements 0 to 18 as expressions 3 to 21 and the stores of its first local's from expression 2 on.
fn elements() -> String {
    let reads: String = (0..19).map(|i| format!("expr 0 AccessIndex 1 {i}\n")).collect();
    format!(
        "{HEAD}fn function 2 -\narg 0 -\narg 1 -\n{}expr 0 FunctionArgument 0\nexpr 1 FunctionArgument 1\nexpr 0 LocalVariable 0\n{reads}",
        "local 0\n".repeat(4)
    )
}

/// The value composed of these elements, from expression `at` on: one list, or two and one of both.
fn composed(from: usize, to: usize, at: usize) -> (String, usize) {
    let list = |from: usize, to: usize| (from..to).map(|i| (3 + i).to_string()).collect::<Vec<_>>().join(" ");
    let middle = (from + to) / 2;
    let text =
        format!("expr 2 Compose [{}]\nexpr 2 Compose [{}]\nexpr 2 Compose [{at} {}]\n", list(from, middle), list(middle, to), at + 1);
    (text, at + 2)
}

/// Two blocks that each return elements of the argument, nine and the others.
fn branches(statement: &str, count: usize) -> String {
    let (low, first) = composed(0, 9, 22);
    let (high, second) = composed(9, count, first + 1);
    format!("{}{low}{high}block\nstmt Return {first}\nblock\nstmt Return {second}\nblock\nstmt {statement}\nrequest 0 all\n", elements())
}

/// A loop whose body and continuing each come to one more element in its first turn: locals 0 and 2 are asked after it, and are set from
/// locals 1 and 3, which are set later in the same turn.
fn turn(count: usize) -> String {
    let (held, after) = composed(0, count - 2, 22);
    let locals: String = (1..4).map(|n| format!("expr 0 LocalVariable {n}\n")).collect();
    let (one, two, three) = (after + 1, after + 2, after + 3);
    let loads: String = [2, one, two, three].iter().map(|e| format!("expr 0 Load {e}\n")).collect();
    let load = |n: usize| three + 1 + n;
    let value = load(3) + 1;
    format!(
        "{}{held}{locals}{loads}expr 2 Compose [{after} {} {}]\nblock\nstmt Store 2 {}\nstmt Store {one} 20\nblock\nstmt Store {two} {}\n\
         stmt Store {three} 21\nblock\nstmt Loop 0 1 -\nstmt Return {value}\nrequest 0 all\n",
        elements(),
        load(0),
        load(2),
        load(1),
        load(3)
    )
}

fn wide(from: usize, to: usize) -> String {
    let list: Vec<String> = (from..to).map(|i| format!("{i}:all")).collect();
    format!("{{{}}}", list.join(","))
}

/// A function asked twice for other elements of what it returns.
fn total(count: usize) -> String {
    format!("{HEAD}fn function 1 -\nblock\nstmt Return -\nrequest 0 {}\nrequest 0 {}\n", wide(0, 8), wide(8, count))
}

/// The same by two calls of one request, each into a local of which those elements are read.
fn called_total(count: usize) -> String {
    // an element of a local and its load, from expression 4 on
    let read = |i: usize| format!("expr 0 AccessIndex {} {i}\nexpr 0 Load {}\n", if i < 8 { 2 } else { 3 }, 4 + 2 * i);
    let reads: String = (0..count).map(read).collect();
    let list = |from: usize, to: usize| (from..to).map(|i| (5 + 2 * i).to_string()).collect::<Vec<_>>().join(" ");
    let (low, high, all) = (4 + 2 * count, 5 + 2 * count, 6 + 2 * count);
    format!(
        "{HEAD}fn function 1 -\nblock\nstmt Return -\nstmt Kill\nfn function 2 -\nlocal 1\nlocal 1\nexpr 1 CallResult\nexpr 1 CallResult\n\
         expr 1 LocalVariable 0\nexpr 1 LocalVariable 1\n{reads}expr 2 Compose [{}]\nexpr 2 Compose [{}]\nexpr 2 Compose [{low} {high}]\n\
         block\nstmt Call 0 [] 0\nstmt Store 2 0\nstmt Call 0 [] 1\nstmt Store 3 1\nstmt Return {all}\nrequest 1 all\n",
        list(0, 8),
        list(8, count)
    )
}
