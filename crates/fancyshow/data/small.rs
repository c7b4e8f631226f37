//! Docs.
#[derive(Debug)]
pub struct Row<'a> { name: &'a str }

/* a /* nested */ comment */
fn quote(x: u8) -> String {
    let raw = r#"a "quoted" part"#;
    let c = '\'';
    if x == 0x1fu8 { println!("{raw}\n"); }
    call(raw.len(), c)
}
