//! Lists in a folder, beside the plans that a program printed for them: N.list is the standard input,
//! N.args has the arguments, on one line, and N.plan is what was printed.

use super::figures::Answer;
use super::printed;
use super::survey::Survey;
use std::fs;
use std::path::{Path, PathBuf};

fn file(folder: &Path, number: usize, ending: &str) -> PathBuf {
    folder.join(format!("{number}.{ending}"))
}

fn read_file(path: &Path) -> Result<String, String> {
    fs::read_to_string(path).map_err(|why| format!("{}: {why}", path.display()))
}

/// Writes lists and arguments, numbered from 1.
pub fn write(folder: &Path, surveys: &[Survey]) -> Result<(), String> {
    for (number, survey) in (1..).zip(surveys) {
        for (ending, content) in [("list", survey.list()), ("args", survey.settings() + "\n")] {
            let path = file(folder, number, ending);
            fs::write(&path, content).map_err(|why| format!("{}: {why}", path.display()))?;
        }
    }
    Ok(())
}

/// Reads lists, arguments and printed plans, as far as they are numbered without a gap.
pub fn read(folder: &Path) -> Result<Vec<(Survey, Answer)>, String> {
    let mut read = Vec::new();
    for number in (1..).take_while(|number| file(folder, *number, "list").exists()) {
        let [list, settings, plan] = ["list", "args", "plan"].map(|ending| read_file(&file(folder, number, ending)));
        let survey = Survey::read(&list?, &settings?).map_err(|why| format!("list {number}: {why}"))?;
        let answer = printed::read(&plan?).map_err(|why| format!("plan {number}: {why}"))?;
        read.push((survey, answer));
    }
    Ok(read)
}
