//! Lists of steps, in the language of `l4_steps`, are answered as that program answers them: tests/steps at the top of the repository
//! has each list with what it prints (.out), its standard error (.err) and its exit status (.status). Of standard error, only the number of
//! the line is compared.
use l4::{
    Answer, Call, Ipc, Kernel, Mapping, Message, Outcome, Refusal, Reply, Rights, Step, ThreadId,
};
use std::fmt::Write;
use std::path::{Path, PathBuf};
use std::{fs, io};

/// The default number of frames of a machine.
const FRAMES: u32 = 256;

/// The greatest number of bytes of a line.
const MAX_LINE: usize = 4096;

/// What answers a line: the text, or nothing if it is not a valid step or query.
type Answered = Option<String>;

fn number(token: &str) -> Option<u32> {
    let (digits, radix, most) = match token.strip_prefix("0x") {
        Some(digits) => (digits, 16, 8),
        None => (token, 10, 10),
    };
    let sound =
        (1..=most).contains(&digits.len()) && digits.chars().all(|digit| digit.is_digit(radix));
    u32::from_str_radix(digits, radix).ok().filter(|_| sound)
}

fn id(word: u32) -> ThreadId {
    ThreadId::of_word(word)
}

fn call(kind: &str, numbers: &[u32]) -> Option<Call> {
    Some(match (kind, numbers) {
        ("ipc", &[to, from, timeouts, acceptor, ref words @ ..]) => Call::ipc(&Ipc {
            to: id(to),
            from: id(from),
            timeouts,
            acceptor,
            message: Message::of_words(words).ok()?,
        }),
        ("fault", &[address, ip, access @ 0..=7]) => {
            Call::fault(address, ip, Rights::of_bits(access))
        }
        ("unmap", &[control, ref words @ ..]) => Call::unmap_words(control, words).ok()?,
        ("create", &[thread, space, pager]) => Call::create(id(thread), id(space), id(pager)),
        ("setpager", &[thread, pager]) => Call::set_pager(id(thread), id(pager)),
        ("delete", &[thread]) => Call::delete(id(thread)),
        _ => return None,
    })
}

fn reply_text(reply: Option<Reply>, none: &str) -> String {
    match reply {
        None => none.into(),
        Some(Reply::Ipc(received)) => {
            let error = received.error.map_or(0, |error| error.number());
            let mut text = format!(
                "ipc {:08x} {error} {:08x}",
                received.tag,
                received.from.word()
            );
            for word in received.words {
                write!(text, " {word:08x}").unwrap();
            }
            text
        }
        Some(Reply::Hit) => "hit".into(),
        Some(Reply::Answered) => "answered".into(),
        Some(Reply::Failed(error)) => format!("failed {}", error.number()),
        Some(Reply::Unmapped) => "unmapped".into(),
        Some(Reply::Controlled) => "controlled".into(),
        Some(Reply::Gone) => "gone".into(),
        Some(other) => panic!("no list has this reply: {other:?}"),
    }
}

fn answer_text(kernel: &Kernel, answered: Result<Answer, Refusal>) -> String {
    let answer = match answered {
        Ok(answer) => answer,
        Err(refused) => {
            let detail = refused
                .detail()
                .map_or(String::new(), |detail| format!(" {detail}"));
            return format!("refused {}{detail}\n", refused.code());
        }
    };
    let outcome = match answer.outcome {
        Outcome::Started => "started",
        Outcome::Delivered => "done",
        Outcome::NoWindow => "no-window",
        Outcome::Entangled => "entangled",
        Outcome::WantsMemory => "no-memory",
        Outcome::Expired => "expired",
        Outcome::WaitEnded => "canceled",
        other => panic!("no list has this outcome: {other:?}"),
    };
    let mut text = format!("{outcome}\n");
    for thread in answer.ended {
        writeln!(
            text,
            "{thread} {}",
            reply_text(kernel.reply(thread), "gone")
        )
        .unwrap();
    }
    text
}

fn step_text(step: Option<Step>) -> String {
    match step {
        Some(Step::Transfer { sender, receiver }) => {
            format!("enabled transfer {sender} {receiver}\n")
        }
        Some(Step::Expire { thread }) => format!("enabled expire {thread}\n"),
        None => "enabled none\n".into(),
        Some(other) => panic!("no list has this step: {other:?}"),
    }
}

fn page_text(mapping: Mapping) -> String {
    let parent = match mapping.parent {
        Some(place) => format!("{} {}", place.space, place.page),
        None => "none".into(),
    };
    format!(
        "page {} frame {} {} {parent}\n",
        mapping.place.page, mapping.frame, mapping.rights
    )
}

fn pages_text(kernel: &Kernel, space: u64) -> String {
    let shown: Vec<String> = kernel.mappings(space).map(page_text).collect();
    format!("{}shown {}\n", shown.concat(), shown.len())
}

fn start(kernel: &mut Kernel, tokens: &[&str]) -> Answered {
    let [caller, kind, rest @ ..] = tokens else {
        return None;
    };
    let numbers: Option<Vec<u32>> = rest.iter().copied().map(number).collect();
    let answered = kernel.start(number(caller)?, &call(kind, &numbers?)?);
    Some(answer_text(kernel, answered))
}

fn answer_line(kernel: &mut Kernel, line: &str) -> Answered {
    let tokens: Vec<&str> = line.split(' ').filter(|token| !token.is_empty()).collect();
    let Some((&name, rest)) = tokens.split_first() else {
        return Some(String::new());
    };
    if line.starts_with('#') {
        return Some(String::new());
    }
    if name == "start" {
        return start(kernel, rest);
    }
    let numbers: Option<Vec<u32>> = rest.iter().copied().map(number).collect();
    Some(match (name, numbers?.as_slice()) {
        ("transfer", &[sender, receiver]) => {
            let answered = kernel.transfer(sender, receiver);
            answer_text(kernel, answered)
        }
        ("expire", &[thread]) => {
            let answered = kernel.expire(thread);
            answer_text(kernel, answered)
        }
        ("timeout", &[thread]) => {
            let answered = kernel.timeout(thread);
            answer_text(kernel, answered)
        }
        ("cancel", &[thread]) => {
            let answered = kernel.cancel(thread);
            answer_text(kernel, answered)
        }
        ("enabled", &[]) => step_text(kernel.enabled()),
        ("reply", &[thread]) => reply_text(kernel.reply(thread), "none") + "\n",
        ("space", &[thread]) => match kernel.space_of(thread) {
            Some(space) => format!("space {space}\n"),
            None => "none\n".into(),
        },
        ("pages", &[space]) => pages_text(kernel, space.into()),
        _ => return None,
    })
}

/// What a list prints on standard output and on standard error.
fn replay(list: &str) -> (String, String) {
    let mut kernel = Kernel::boot(FRAMES).unwrap();
    let mut out = String::new();
    for (place, line) in list.split_inclusive('\n').enumerate() {
        let whole = line.strip_suffix('\n');
        let why = if line.len() > MAX_LINE + usize::from(whole.is_some()) {
            "is longer than 4096 bytes"
        } else if let Some(line) = whole {
            match answer_line(&mut kernel, line) {
                Some(text) => {
                    out += &text;
                    continue;
                }
                None => "is not a valid step or query",
            }
        } else {
            "does not end with a newline"
        };
        return (out, format!("error: line {} {why}\n", place + 1));
    }
    (out, String::new())
}

fn lists() -> PathBuf {
    Path::new(env!("CARGO_MANIFEST_DIR")).join("../../tests/steps")
}

/// The number of the line that an error message names.
fn named_line(message: &str) -> Option<&str> {
    message
        .strip_prefix("error: line ")?
        .split(|c: char| !c.is_ascii_digit())
        .next()
}

/// A file's text, or a default if there is no such file.
fn text_or(path: &Path, other: &str) -> String {
    match fs::read_to_string(path) {
        Ok(text) => text,
        Err(fault) if fault.kind() == io::ErrorKind::NotFound => other.into(),
        Err(fault) => panic!("{}: {fault}", path.display()),
    }
}

#[test]
fn each_list_is_answered_as_the_program_answers_it() {
    let mut count = 0;
    for entry in fs::read_dir(lists()).unwrap() {
        let path = entry.unwrap().path();
        if path.extension().is_some_and(|end| end == "steps") {
            let (out, err) = replay(&fs::read_to_string(&path).unwrap());
            assert_eq!(
                out,
                fs::read_to_string(path.with_extension("out")).unwrap(),
                "{}",
                path.display()
            );
            assert_eq!(
                named_line(&err),
                named_line(&text_or(&path.with_extension("err"), "")),
                "{}",
                path.display()
            );
            let status = if err.is_empty() { "0" } else { "2" };
            assert_eq!(
                status,
                text_or(&path.with_extension("status"), "0").trim_end(),
                "{}",
                path.display()
            );
            count += 1;
        }
    }
    assert!(count >= 14, "{count} lists");
}
