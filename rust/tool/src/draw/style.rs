//! The style of every picture, light and dark, a list for what all share and one for each sort. Where a reader of pictures does not know of dark ones it is light, and so is print.

/// A selector with what it is by daylight, and what is otherwise by night.
pub struct Tone {
    of: &'static str,
    light: &'static str,
    dark: &'static str,
}

const fn tone(of: &'static str, light: &'static str, dark: &'static str) -> Tone {
    Tone { of, light, dark }
}

/// What every picture has: words, paper, arrows.
const COMMON: [Tone; 6] = [
    tone("text", "font-family:Helvetica,Arial,'Liberation Sans',sans-serif;fill:#16202b", "fill:#e8edf2"),
    tone(".paper", "fill:#ffffff", "fill:#12181f"),
    tone(".faint", "fill:#4a5663", "fill:#aab6c2"),
    tone(".way", "fill:none;stroke:#3c4754;stroke-width:1.4", "stroke:#b4c0cc"),
    tone(".tip", "fill:#3c4754;stroke:#3c4754;stroke-width:1.2", "fill:#b4c0cc;stroke:#b4c0cc"),
    tone(".hollow", "fill:#ffffff", "fill:#12181f"),
];

/// Rooms and corridors.
pub static MAZE: [Tone; 11] = [
    tone(".secret .way", "stroke-dasharray:6 4", ""),
    tone(".best .way", "stroke:#0b5d2a;stroke-width:3.2", "stroke:#7fe0a0"),
    tone(".best .tip", "fill:#0b5d2a;stroke:#0b5d2a", "fill:#7fe0a0;stroke:#7fe0a0"),
    tone(".best .hollow", "fill:#ffffff", "fill:#12181f"),
    tone(".outline", "stroke-width:1.3", ""),
    tone(".named .outline", "stroke-width:2.8", ""),
    tone(".wins .outline", "fill:#dff3e4;stroke:#0b5d2a", "fill:#12351f;stroke:#7fe0a0"),
    tone(".loses .outline", "fill:#fbe3e1;stroke:#96201a", "fill:#431b1a;stroke:#ff9d94"),
    tone(".draws .outline", "fill:#fff3cf;stroke:#7a5600", "fill:#3a2e0c;stroke:#f3cf6a"),
    tone(".dungeon .outline", "fill:#d5dae0;stroke:#16202b", "fill:#2a333d;stroke:#e8edf2"),
    tone(".bars", "fill:none;stroke:#16202b;stroke-width:2.2", "stroke:#e8edf2"),
];

/// Levels over instants, and what cannot be told.
pub static TIMING: [Tone; 12] = [
    tone(".grid", "fill:none;stroke:#d5dae0;stroke-width:1", "stroke:#2f3a45"),
    tone(".level", "fill:none;stroke:#3c4754;stroke-width:1.8", "stroke:#b4c0cc"),
    tone(".level.present", "stroke:#0b5d2a;stroke-width:2.4", "stroke:#7fe0a0"),
    tone(".under", "fill:#dff3e4", "fill:#12351f"),
    tone(".level.told", "stroke-dasharray:4 3", ""),
    tone(".level.unknown,.picture .flag", "fill:#fff3cf;stroke:#7a5600;stroke-width:1.2", "fill:#3a2e0c;stroke:#f3cf6a"),
    tone(".level.unheard", "fill:#ffffff;stroke:#7a5600;stroke-width:1.2;stroke-dasharray:2 2", "fill:#12181f;stroke:#f3cf6a"),
    tone(".hatch", "fill:none;stroke:#7a5600;stroke-width:1", "stroke:#f3cf6a"),
    tone(".plate", "fill:#ffffff", "fill:#12181f"),
    tone(".mark", "fill:none;stroke:#96201a;stroke-width:2.6", "stroke:#ff9d94"),
    tone(".rule", "fill:none;stroke:#3c4754;stroke-width:1", "stroke:#b4c0cc"),
    tone(".differs", "fill:#96201a", "fill:#ff9d94"),
];

/// Statements within statements.
pub static CHART: [Tone; 7] = [
    tone(".box", "fill:#ffffff;stroke:#3c4754;stroke-width:1", "fill:#12181f;stroke:#b4c0cc"),
    tone(".head", "fill:#eef2f6;stroke:#3c4754;stroke-width:1", "fill:#1f2933;stroke:#b4c0cc"),
    tone(".rule", "fill:none;stroke:#3c4754;stroke-width:1", "stroke:#b4c0cc"),
    tone(".running>.head", "fill:#dff3e4;stroke:#0b5d2a;stroke-width:1.8", "fill:#12351f;stroke:#7fe0a0"),
    tone(".active>.box", "fill:#dff3e4;stroke:#0b5d2a;stroke-width:3", "fill:#12351f;stroke:#7fe0a0"),
    tone(".sign", "fill:#0b5d2a", "fill:#7fe0a0"),
    tone(".twin", "fill:none;stroke:#3c4754;stroke-width:1.4", "stroke:#b4c0cc"),
];

/// Tests and emits that wait for each other.
pub static WAITS: [Tone; 7] = [
    tone(".outline", "stroke-width:1.3", ""),
    tone(".named .outline", "stroke-width:3", ""),
    tone(".test .outline", "fill:#fff3cf;stroke:#7a5600", "fill:#3a2e0c;stroke:#f3cf6a"),
    tone(".input .outline", "fill:#ffffff;stroke:#7a5600;stroke-dasharray:4 3", "fill:#12181f;stroke:#f3cf6a"),
    tone(".emit .outline", "fill:#eef2f6;stroke:#3c4754", "fill:#1f2933;stroke:#b4c0cc"),
    tone(".behind .way", "stroke-dasharray:6 4", ""),
    tone(".again .way", "stroke-dasharray:2 3", ""),
];

fn rules(before: &str, lists: &[&'static [Tone]], which: fn(&Tone) -> &'static str) -> String {
    COMMON.iter().chain(lists.iter().copied().flatten()).filter(|tone| !which(tone).is_empty()).map(|tone| format!("{}.picture {}{{{}}}\n", before, tone.of, which(tone))).collect()
}

/// The rules of a picture that stands alone, or of a page with several sorts.
pub fn sheet(lists: &[&'static [Tone]]) -> String {
    // A browser that darkens by itself leaves alone what says that it can.
    let (light, dark) = (rules("", lists, |tone| tone.light), rules("", lists, |tone| tone.dark));
    format!(".picture{{color-scheme:light dark}}\n{}@media screen and (prefers-color-scheme:dark){{\n{}}}\n", light, dark)
}

/// The same for a page on which a reader may choose: `data-light` on the root is `on` or `off`.
pub fn chosen(tones: &'static [Tone]) -> String {
    let tones = &[tones];
    let (light, by_day) = (rules("", tones, |tone| tone.light), rules(":root:not([data-light=on]) ", tones, |tone| tone.dark));
    let by_night = rules(":root[data-light=off] ", tones, |tone| tone.dark);
    format!("{}@media screen and (prefers-color-scheme:dark){{\n{}}}\n@media screen{{\n{}}}\n", light, by_day, by_night)
}
