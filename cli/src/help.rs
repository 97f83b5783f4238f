//! What `--help` and `--version` print.

pub const VERSION: &str = concat!("onnx-gate ", env!("CARGO_PKG_VERSION"), "\n");

pub const MAIN: &str = "\
Checks ONNX models with the proved gate, before a runtime loads them.

Usage: onnx-gate check [OPTIONS] MODEL...
       onnx-gate pass [OPTIONS] MODEL >OUT
       onnx-gate operators write|show ...
       onnx-gate rules

Commands:
  check      accept or refuse each model, and explain refusals
  pass       write out the bytes of a model if it is accepted
  operators  make and print operator lists
  rules      print every refusal number with its rule

Options:
  -h, --help     print this, or the help of a command
  -V, --version  print the version

Exit status: 0 all accepted, 1 some refused, 2 bad usage or a file that cannot be judged.

In its repository ./gate is this command, and builds it before. There ./gate MODEL... checks, and ./gate install
PREFIX installs it with the libraries, the header and the Python module.
";

/// The options of `check` and `pass`.
macro_rules! terms {
    () => {
        "      --operators FILE       the operator list of the runtime, as `onnx-gate operators write` makes it
      --allow DOMAIN:LO-HI   versions of a domain that the runtime has, instead of a list; may stand again.
                             Without either: --allow ai.onnx:7-21 --allow ai.onnx.ml:1-5
      --cells N              work in N cells, of which a visible name takes two: a model that has more than half of
                             N names visible at once is refused with 40; without it there are as many as it needs
      --seed N               how names are spread over the index, from 0 to 2^64 - 1, in digits or in 0x and hex
                             digits: for runs that do the same work again. No answer depends on it. Without it a
                             random one is drawn for each model, so that no file can be made to stall the check
"
    };
}

/// How a file's name is kept from being an option.
macro_rules! names {
    () => {
        "\
Names that start with -: options stand before the first model, and behind -- or a model there are none. A word that
could be an option but ends in .onnx, or is the name of a file in this folder, is bad usage, so that no file which a
shell puts in for * is taken for an option. Write ./NAME or ./*.onnx. --help and --version stand alone.
"
    };
}

pub const CHECK: &str = concat!(
    "\
Accepts or refuses each model, and explains refusals. The answer is the proved library's.

Usage: onnx-gate check [OPTIONS] MODEL...

MODEL is a file, - for standard input, or a folder: then every file below it that ends in .onnx or .ONNX, by name.
Links to files are read, links to folders are told and not followed. What has such a name must be a regular file; under
another name a pipe will do. At most 2,147,483,648 bytes of a file are read: a longer model is refused. A large file is
judged where it lies, without a copy in memory, if it is your own and nobody writes to it; one that is written to
meanwhile is judged as it was. More than one model, or a folder, ends with a line that counts the answers.

An acceptance has three counts: the nodes of all graphs and functions; the most names that are visible at once; and the
odd names. These are not C identifiers (a letter or underscore, then letters, digits and underscores), as exporters
write /encoder/MatMul, and need only be UTF-8. Of graphs, functions, inputs, initializers, nodes, outputs, operators,
attributes and dimension variables each field that holds such a name counts, uses too; domains do not.

Options:
",
    terms!(),
    "      --odd                  under each model that is accepted its odd names with their paths, a line for each, in
                             the order of the bytes
  -q, --quiet                no lines for models that are accepted, and no explanations
      --json                 one JSON object on a line for each file, and no count
  -h, --help                 print this
  -V, --version              print the version

",
    names!(),
    "
Text: only printable ASCII of names is printed as it is; the rest as \\u{e9}, or \\xff where it is not UTF-8.

JSON: each object has the same keys, and null for what does not apply; notes is a list, and so is odd_names with --odd
where a model is accepted: each of them has a place, a path and a name. accepted is true, false, or null where the file
was not judged: error says why, or what is wrong with odd_names. place is the byte at which the field begins that is at
fault, or holds the odd name; first, with 23 alone, that of the definition which is already visible. file and name are
text, in which U+FFFD stands for bytes that are not UTF-8; file_hex and name_hex are the same bytes in hex, exactly. At
most 1024 bytes of a name are given; name_length says how many it has.

Exit status: 0 every model was checked and accepted, 1 some are refused (an unsound list refuses every model), 2 bad
usage, a file or folder that cannot be read or holds no model, no memory for the names of a model, or a list of odd
names that is not as long as the library's count: an error of this command, which is told. The verdicts stand.
"
);

pub const PASS: &str = concat!(
    "\
Writes the bytes of a model to standard output if it is accepted, and nothing otherwise. They are the bytes that were
checked, all of which are held in memory, whatever happens to the file meanwhile. The verdict goes to standard error.

Usage: onnx-gate pass [OPTIONS] MODEL >OUT

MODEL is a file, or - for standard input. Standard output must not be a terminal.

Options:
",
    terms!(),
    "  -h, --help                 print this
  -V, --version              print the version

",
    names!(),
    "
Exit status: 0 accepted and written whole, 1 refused, 2 bad usage, a file that cannot be read or written, or no
memory for the names of the model. What was written is of use only with 0.
"
);

pub const OPERATORS: &str = "\
Makes and prints operator lists.

Usage: onnx-gate operators write FILE --allow DOMAIN:LO-HI...
       onnx-gate operators show FILE

write  writes a list with these domains to FILE, or to standard output for -
show   prints a list, an entry on a line as --allow takes it

Options:
      --allow DOMAIN:LO-HI   a domain and the lowest and highest version of it; DOMAIN:V for one version.
                             The empty domain is ai.onnx.
  -h, --help                 print this
  -V, --version              print the version

Exit status: 0 done, 1 the list is unsound, 2 bad usage or an unreadable file.
";

pub const RULES: &str = "\
Prints every refusal number with its name and its rule. 65 is for programs that lend the library cells of their
own: this command always lends enough.

Usage: onnx-gate rules
";
