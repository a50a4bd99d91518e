use bisquemop::{table_room, Layout, Refusal, Settings, Wrap};

fn main() -> Result<(), Refusal> {
    let clue = "Who lied?\n            not the baker, not his wife.";
    let settings = Settings::builder(6, 8).width(72).wrap(Wrap::Drop).build()?;
    let mut table = [0; table_room(20)];
    let layout = Layout::lay(settings, clue, &mut table)?;
    for (row, line) in layout.lines().enumerate().filter(|(_, line)| line.dropped > 0) {
        println!("line {row} drops \"{}\"", line.dropped_text(clue));
    }
    Ok(())
}
