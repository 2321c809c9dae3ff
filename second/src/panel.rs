//! The record of a panel: its family, its IDs, its settings, their ranges and their start values.
//!
//! Document 01, "The box and its messages": "Each panel is of family W (speaks RS-232C and SDCP
//! with VMC text) or family K (speaks KJW frames)."

use crate::flip::Flip;

/// "A group ID is never taken for a unit ID, though each is one byte."
#[derive(Clone, Copy, Debug, PartialEq, Eq)]
pub struct GroupId(pub u8);

/// See [`GroupId`].
#[derive(Clone, Copy, Debug, PartialEq, Eq)]
pub struct UnitId(pub u8);

/// "Connectors: COMPOSITE 0, Y/C 2, RGB 4, COMPONENT 5, OPTION A-1 6, A-2 7, DVI 8, HD15 9,
/// OPTION B-1 10, B-2 11."
#[derive(Clone, Copy, Debug, PartialEq, Eq)]
pub enum Connector {
    Composite,
    Yc,
    Rgb,
    Component,
    OptionA1,
    OptionA2,
    Dvi,
    Hd15,
    OptionB1,
    OptionB2,
}

impl Connector {
    /// All ten, by rising code.
    pub const ALL: [Connector; 10] = [
        Connector::Composite,
        Connector::Yc,
        Connector::Rgb,
        Connector::Component,
        Connector::OptionA1,
        Connector::OptionA2,
        Connector::Dvi,
        Connector::Hd15,
        Connector::OptionB1,
        Connector::OptionB2,
    ];

    pub fn code(self) -> u8 {
        match self {
            Connector::Composite => 0,
            Connector::Yc => 2,
            Connector::Rgb => 4,
            Connector::Component => 5,
            Connector::OptionA1 => 6,
            Connector::OptionA2 => 7,
            Connector::Dvi => 8,
            Connector::Hd15 => 9,
            Connector::OptionB1 => 10,
            Connector::OptionB2 => 11,
        }
    }

    pub fn from_code(code: u8) -> Option<Connector> {
        Connector::ALL
            .into_iter()
            .find(|connector| connector.code() == code)
    }
}

/// "Presets: D93 0, USER 2, D65 3."
#[derive(Clone, Copy, Debug, PartialEq, Eq)]
pub enum Preset {
    D93,
    User,
    D65,
}

impl Preset {
    pub fn code(self) -> u8 {
        match self {
            Preset::D93 => 0,
            Preset::User => 2,
            Preset::D65 => 3,
        }
    }

    pub fn from_code(code: u8) -> Option<Preset> {
        match code {
            0 => Some(Preset::D93),
            2 => Some(Preset::User),
            3 => Some(Preset::D65),
            _ => None,
        }
    }
}

/// "MODE0, MODE1, MODE2".
#[derive(Clone, Copy, Debug, PartialEq, Eq)]
pub enum Mode {
    Mode0,
    Mode1,
    Mode2,
}

/// "NTSC0, NTSC75".
#[derive(Clone, Copy, Debug, PartialEq, Eq)]
pub enum Ntsc {
    Ntsc0,
    Ntsc75,
}

/// "RGB RANGE FULL or LIMITED".
#[derive(Clone, Copy, Debug, PartialEq, Eq)]
pub enum RgbRange {
    Full,
    Limited,
}

/// "ON or OFF after REMOTE, POWERSAVING, ... SILENTMODE, ... each a switch of its own." The three
/// words that come last there are the panel's [`Flip`].
#[derive(Clone, Copy, Debug, PartialEq, Eq)]
pub enum Switch {
    Remote,
    PowerSaving,
    KeyInhibit,
    TallyGreen,
    TallyRed,
    HvDelay,
    BlueOnly,
    Monochr,
    CameraFocus,
    Led,
    ScreenSaver,
    SilentMode,
}

impl Switch {
    /// All twelve, in the document's order.
    pub const ALL: [Switch; 12] = [
        Switch::Remote,
        Switch::PowerSaving,
        Switch::KeyInhibit,
        Switch::TallyGreen,
        Switch::TallyRed,
        Switch::HvDelay,
        Switch::BlueOnly,
        Switch::Monochr,
        Switch::CameraFocus,
        Switch::Led,
        Switch::ScreenSaver,
        Switch::SilentMode,
    ];

    /// The switch's name, CAMERA FOCUS being two words.
    pub fn name(self) -> &'static str {
        match self {
            Switch::Remote => "REMOTE",
            Switch::PowerSaving => "POWERSAVING",
            Switch::KeyInhibit => "KEYINHIBIT",
            Switch::TallyGreen => "TALLYGREEN",
            Switch::TallyRed => "TALLYRED",
            Switch::HvDelay => "HVDELAY",
            Switch::BlueOnly => "BLUEONLY",
            Switch::Monochr => "MONOCHR",
            Switch::CameraFocus => "CAMERA FOCUS",
            Switch::Led => "LED",
            Switch::ScreenSaver => "SCREENSAVER",
            Switch::SilentMode => "SILENTMODE",
        }
    }
}

/// The settings of a W panel.
#[derive(Clone, Debug, PartialEq, Eq)]
pub struct WSettings {
    pub phase: u8,
    pub chroma: u8,
    pub volume: u8,
    pub shift_h: i8,
    pub shift_v: i8,
    pub mode: Mode,
    pub ntsc: Ntsc,
    pub rgb_range: RgbRange,
    switches: [bool; 12],
    pub flip: Flip,
    /// The connector in use.
    pub input: Connector,
    connectors_on: [bool; 10],
    pub preset: Preset,
    /// R, G, B.
    pub gain: [u16; 3],
    /// R, G, B.
    pub bias: [i16; 3],
}

impl WSettings {
    /// "W: PHASE 50, CHROMA 50, VOLUME 30, shifts 0, MODE0, NTSC0, RGB RANGE FULL, switches OFF
    /// but REMOTE ON; COMPOSITE, all connectors ON, D65, gains 2048, biases 0."
    pub fn at_start() -> WSettings {
        let mut settings = WSettings {
            phase: 50,
            chroma: 50,
            volume: 30,
            shift_h: 0,
            shift_v: 0,
            mode: Mode::Mode0,
            ntsc: Ntsc::Ntsc0,
            rgb_range: RgbRange::Full,
            switches: [false; 12],
            flip: Flip::AT_START,
            input: Connector::Composite,
            connectors_on: [true; 10],
            preset: Preset::D65,
            gain: [2048; 3],
            bias: [0; 3],
        };
        settings.turn(Switch::Remote, true);
        settings
    }

    pub fn is_on(&self, switch: Switch) -> bool {
        self.switches[switch as usize]
    }

    pub fn turn(&mut self, switch: Switch, on: bool) {
        self.switches[switch as usize] = on;
    }

    pub fn connector_is_on(&self, connector: Connector) -> bool {
        self.connectors_on[connector as usize]
    }

    pub fn turn_connector(&mut self, connector: Connector, on: bool) {
        self.connectors_on[connector as usize] = on;
    }

    /// "ALL RESET, which turns all ten ON".
    pub fn turn_all_connectors_on(&mut self) {
        self.connectors_on = [true; 10];
    }

    /// No setting stands outside its range. No range is stated for which connectors are ON, nor
    /// that the one in use is among them (docs/DECISIONS.md).
    pub fn in_range(&self) -> bool {
        let levels = [self.phase, self.chroma, self.volume];
        let shifts = [self.shift_h, self.shift_v];
        levels.iter().all(|level| *level <= 100)
            && shifts.iter().all(|shift| (-30..=30).contains(shift))
            && self.gain.iter().all(|gain| *gain <= 4095)
            && self.bias.iter().all(|bias| (-1024..=1023).contains(bias))
    }
}

/// "INPT is seven `0`, type 1, 3, 4 or 5"; the names are those of 003.
#[derive(Clone, Copy, Debug, PartialEq, Eq)]
pub enum InputType {
    Hdmi,
    Composite,
    Component,
    ScreenMirroring,
}

impl InputType {
    pub fn digit(self) -> u8 {
        match self {
            InputType::Hdmi => b'1',
            InputType::Composite => b'3',
            InputType::Component => b'4',
            InputType::ScreenMirroring => b'5',
        }
    }

    pub fn from_digit(digit: u8) -> Option<InputType> {
        match digit {
            b'1' => Some(InputType::Hdmi),
            b'3' => Some(InputType::Composite),
            b'4' => Some(InputType::Component),
            b'5' => Some(InputType::ScreenMirroring),
            _ => None,
        }
    }
}

/// "SCEN `auto`, `auto24pSync` or `general`".
#[derive(Clone, Copy, Debug, PartialEq, Eq)]
pub enum Scene {
    Auto,
    Auto24pSync,
    General,
}

impl Scene {
    pub const ALL: [Scene; 3] = [Scene::Auto, Scene::Auto24pSync, Scene::General];

    pub fn name(self) -> &'static str {
        match self {
            Scene::Auto => "auto",
            Scene::Auto24pSync => "auto24pSync",
            Scene::General => "general",
        }
    }
}

/// The settings of a K panel.
#[derive(Clone, Debug, PartialEq, Eq)]
pub struct KSettings {
    pub power: bool,
    pub input_type: InputType,
    pub port: u16,
    pub volume: u8,
    pub audio_mute: bool,
    pub picture_mute: bool,
    pub scene: Scene,
}

impl KSettings {
    /// "K: standby, HDMI port 1, volume 0, no mutes, `general`."
    pub fn at_start() -> KSettings {
        KSettings {
            power: false,
            input_type: InputType::Hdmi,
            port: 1,
            volume: 0,
            audio_mute: false,
            picture_mute: false,
            scene: Scene::General,
        }
    }

    /// No setting stands outside its range: volume "0 to 100", "port 0001 to 9999".
    pub fn in_range(&self) -> bool {
        self.volume <= 100 && (1..=9999).contains(&self.port)
    }
}

/// What a panel holds, by its family.
#[derive(Clone, Debug, PartialEq, Eq)]
pub enum Settings {
    W(WSettings),
    K(KSettings),
}

/// A panel of the box.
#[derive(Clone, Debug, PartialEq, Eq)]
pub struct Panel {
    pub group: GroupId,
    pub unit: UnitId,
    pub settings: Settings,
}

impl Panel {
    pub fn is_w(&self) -> bool {
        matches!(self.settings, Settings::W(_))
    }

    /// The rules that one panel alone can break.
    ///
    /// "A W panel has a group ID 1 to 99 and a unit ID 1 to 99 ... A K panel has 0 for both."
    pub fn keeps_the_rules(&self) -> bool {
        match &self.settings {
            Settings::W(settings) => {
                (1..=99).contains(&self.group.0)
                    && (1..=99).contains(&self.unit.0)
                    && settings.in_range()
            }
            Settings::K(settings) => self.group.0 == 0 && self.unit.0 == 0 && settings.in_range(),
        }
    }
}
