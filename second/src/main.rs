//! The second program at the command line.

use std::env;
use std::io::{self, Read, Write};
use std::process::ExitCode;
use std::str::FromStr;

use second::answers::REFUSALS;
use second::bench::{self, Turns};
use second::calls;
use second::hex::{from_hex, to_hex};
use second::known_answers;
use second::lowmc::Lowmc;
use second::sets::{
    Set, HIGHEST_BLOCK_LIMIT, LONGEST_HASH_OUTPUT, LONGEST_MESSAGE, SALT_BYTES, SETS,
};
use second::shake::{shake, Hash, Sponge};
use second::signed;

const HELP: &str = "\
second help
    print this text
second constants
    print the numbers that a host's header has, a name and a number a line
second calls {hash|encrypt|public_key|seeds|challenge|read|write|sign|verify}
    print calls of this function of the library with their answers, for a C
    host to make
second calls damaged
    print calls of verify with many damaged signatures
second calls fuzz SEED COUNT
    print COUNT calls of verify, read and write by seeded noise: signatures
    and unpacked forms changed at random, with the answers of this program
second answers SET COUNT
    sign COUNT messages under set 1, 2 or 3 and print keys, messages and
    signatures in the form in which Picnic's known answers are published
second published
    read known answers of that form and print them as calls
second signed
    read known signatures by their digests, a line each: set, secret key, C,
    p, message, length of the signature, its SHA-256; sign each message with
    derived seeds and print all in the form of known answers, if every
    signature is as its line says
second shake {128|256} OUTLEN
    hash standard input and print OUTLEN bytes of output in hex
second tables N S R
    draw the LowMC tables for N bits, S S-boxes and R rounds, and print the
    SHAKE256 digests (32 bytes, in hex) of the key matrices, the layer
    matrices and the round constants, one a line
second lend SET
    write the drawn LowMC tables of set 1, 2 or 3 as bytes: key matrices,
    layer matrices, round constants
second encrypt SET KEYHEX BLOCKHEX
    encrypt a block with the LowMC of set 1, 2 or 3 over its drawn tables and
    print the ciphertext in hex
second bench {hash|encrypt|sign|verify} SET TURNS TIMES
    do one thing TIMES times in each of TURNS turns, and print the nanoseconds
    of one time in the quickest turn, and what came of the last: hash a long
    input, by permutations; encrypt what the last time gave; sign a message;
    verify a signature
second work SET
    print the permutations and the matrix products that it takes to encrypt a
    block, to sign that message, to sign it in two passes, and to verify the
    signature, a line each
";

/// What went wrong, in words for the user.
type Refusal = String;

fn main() -> ExitCode {
    let arguments: Vec<String> = env::args_os()
        .skip(1)
        .map(|argument| argument.to_string_lossy().into_owned())
        .collect();
    match run(&arguments, &mut io::stdin(), &mut io::stdout()) {
        Ok(()) => ExitCode::SUCCESS,
        Err(refusal) => {
            eprintln!("second: {refusal}");
            ExitCode::FAILURE
        }
    }
}

/// Runs one subcommand.
fn run(arguments: &[String], input: &mut dyn Read, output: &mut dyn Write) -> Result<(), Refusal> {
    let arguments: Vec<&str> = arguments.iter().map(String::as_str).collect();
    match arguments[..] {
        ["help"] => print(output, HELP),
        ["constants"] => run_constants(output),
        ["calls", function] => run_calls(function, output),
        ["calls", "fuzz", seed, count] => run_fuzz(seed, count, output),
        ["answers", set, count] => run_answers(set, count, output),
        ["published"] => run_published(input, output),
        ["signed"] => run_signed(input, output),
        ["shake", which, length] => run_shake(which, length, input, output),
        ["tables", n, s, r] => run_tables(n, s, r, output),
        ["lend", set] => run_lend(set, output),
        ["encrypt", set, key, block] => run_encrypt(set, key, block, output),
        ["work", set] => run_work(set, output),
        ["bench", what, set, turns, times] => run_bench(what, set, turns, times, output),
        _ => Err("no such subcommand with so many arguments; try: second help".into()),
    }
}

fn run_constants(output: &mut dyn Write) -> Result<(), Refusal> {
    print(output, "PICNIC_FINE 0\n")?;
    for (refusal, name) in REFUSALS {
        print(output, &format!("PICNIC_{name} {}\n", refusal.number()))?;
    }
    for (name, number) in [
        ("SALT", SALT_BYTES),
        ("MESSAGE_MOST", LONGEST_MESSAGE),
        ("HASH_MOST", LONGEST_HASH_OUTPUT),
        ("LIMIT_MOST", HIGHEST_BLOCK_LIMIT),
    ] {
        print(output, &format!("PICNIC_{name} {number}\n"))?;
    }
    for set in &SETS {
        // picnic-L1-FS in the paper, PICNIC_L1_FS in the header
        let name = set.name.to_uppercase().replace('-', "_");
        print(output, &format!("{name} {}\n", set.number))?;
        for (what, number) in [
            ("VALUES", set.t),
            ("BLOCK", set.width()),
            ("PUBLIC", set.public_key_bytes()),
            ("DIGEST", set.digest_bytes),
            ("KEYS", set.key_table_bytes()),
            ("LAYERS", set.layer_table_bytes()),
            ("CONSTANTS", set.constants_bytes()),
            ("SEEDS", set.seeds_bytes()),
            ("ROOM", set.room_bytes()),
            ("SIGNATURE", set.longest_signature()),
            ("UNPACKED", set.unpacked_bytes()),
        ] {
            print(output, &format!("{name}_{what} {number}\n"))?;
        }
    }
    Ok(())
}

fn run_calls(function: &str, output: &mut dyn Write) -> Result<(), Refusal> {
    let sheet = calls::of(function)
        .ok_or_else(|| format!("{function}: no calls are written of such a function"))?;
    print(output, &sheet.to_string())
}

fn run_fuzz(seed: &str, count: &str, output: &mut dyn Write) -> Result<(), Refusal> {
    let seed: u64 = number("SEED", seed)?;
    if seed >= 1 << 63 {
        return Err(format!("SEED: {seed} is too high"));
    }
    let sheet = calls::fuzz::sheet(seed, number("COUNT", count)?);
    print(output, &sheet.to_string())
}

fn run_answers(set: &str, count: &str, output: &mut dyn Write) -> Result<(), Refusal> {
    let answers = known_answers::own(set_of(set)?, number("COUNT", count)?);
    print(output, &known_answers::write(&answers))
}

fn run_published(input: &mut dyn Read, output: &mut dyn Write) -> Result<(), Refusal> {
    let sheet = calls::published::sheet(&known_answers::read(&text(input)?)?);
    print(output, &sheet.to_string())
}

fn run_signed(input: &mut dyn Read, output: &mut dyn Write) -> Result<(), Refusal> {
    let answers = signed::answers(&text(input)?)?;
    print(output, &known_answers::write(&answers))
}

fn run_shake(
    which: &str,
    length: &str,
    input: &mut dyn Read,
    output: &mut dyn Write,
) -> Result<(), Refusal> {
    let hash = match which {
        "128" => Hash::Shake128,
        "256" => Hash::Shake256,
        _ => return Err(format!("{which}: neither 128 nor 256")),
    };
    let mut left: u64 = number("OUTLEN", length)?;
    let message = all(input)?;
    let mut sponge = Sponge::new(hash);
    sponge.absorb(&message);
    let mut stream = sponge.close();
    let mut piece = [0; 4096];
    while left > 0 {
        let size = left.min(piece.len() as u64);
        let filled = &mut piece[..size as usize];
        stream.squeeze(filled);
        print(output, &to_hex(filled))?;
        left -= size;
    }
    print(output, "\n")
}

fn run_tables(n: &str, s: &str, r: &str, output: &mut dyn Write) -> Result<(), Refusal> {
    let cipher = Lowmc::new(number("N", n)?, number("S", s)?, number("R", r)?)
        .ok_or("there must be a bit in a block, and three for each S-box")?;
    let tables = cipher.tables();
    for table in [&tables.keys, &tables.layers, &tables.constants] {
        let digest = shake(Hash::Shake256, table, 32);
        print(output, &format!("{}\n", to_hex(&digest)))?;
    }
    Ok(())
}

fn run_lend(set: &str, output: &mut dyn Write) -> Result<(), Refusal> {
    let tables = set_of(set)?.lowmc().tables();
    for table in [&tables.keys, &tables.layers, &tables.constants] {
        write(output, table)?;
    }
    Ok(())
}

fn run_encrypt(set: &str, key: &str, block: &str, output: &mut dyn Write) -> Result<(), Refusal> {
    let set = set_of(set)?;
    let key = bytes("KEYHEX", key, set.width())?;
    let block = bytes("BLOCKHEX", block, set.width())?;
    let cipher = set.lowmc();
    let ciphertext = cipher.encrypt(&cipher.tables(), &key, &block);
    print(output, &format!("{}\n", to_hex(&ciphertext)))
}

fn run_bench(
    what: &str,
    set: &str,
    turns: &str,
    times: &str,
    output: &mut dyn Write,
) -> Result<(), Refusal> {
    let set = set_of(set)?;
    let (turns, times) = (number("TURNS", turns)?, number("TIMES", times)?);
    if turns == 0 || times == 0 {
        return Err("nothing is measured in no time".into());
    }
    let turns = Turns { turns, times };
    let measured = match what {
        "encrypt" => bench::encryptions(set, turns),
        "hash" => bench::permutations(set, turns),
        "sign" => bench::signatures(set, turns),
        "verify" => bench::verdicts(set, turns),
        _ => return Err(format!("{what}: not measured")),
    };
    let last = to_hex(&measured.last);
    print(output, &format!("{:.1} {last}\n", measured.nanoseconds))
}

fn run_work(set: &str, output: &mut dyn Write) -> Result<(), Refusal> {
    for (name, work) in bench::work(set_of(set)?) {
        let (permutations, products) = (work.permutations, work.products);
        print(output, &format!("{name} {permutations} {products}\n"))?;
    }
    Ok(())
}

/// An argument that is the number of a set.
fn set_of(text: &str) -> Result<&'static Set, Refusal> {
    Set::by_number(number("SET", text)?).ok_or("there is no such set".into())
}

/// An argument that is a number.
fn number<N: FromStr>(name: &str, text: &str) -> Result<N, Refusal> {
    text.parse()
        .map_err(|_| format!("{name}: {text:?} is no number of the kind wanted"))
}

/// An argument that is a byte string of a given length.
fn bytes(name: &str, text: &str, length: usize) -> Result<Vec<u8>, Refusal> {
    from_hex(text)
        .filter(|bytes| bytes.len() == length)
        .ok_or_else(|| format!("{name}: {length} bytes in hex are wanted"))
}

/// All of standard input.
fn all(input: &mut dyn Read) -> Result<Vec<u8>, Refusal> {
    let mut bytes = Vec::new();
    match input.read_to_end(&mut bytes) {
        Ok(_) => Ok(bytes),
        Err(error) => Err(format!("standard input: {error}")),
    }
}

/// All of standard input, which must be text.
fn text(input: &mut dyn Read) -> Result<String, Refusal> {
    String::from_utf8(all(input)?).map_err(|_| "standard input is no text".into())
}

fn print(output: &mut dyn Write, text: &str) -> Result<(), Refusal> {
    write(output, text.as_bytes())
}

fn write(output: &mut dyn Write, bytes: &[u8]) -> Result<(), Refusal> {
    output
        .write_all(bytes)
        .and_then(|()| output.flush())
        .map_err(|error| format!("standard output: {error}"))
}
