//! Properties of characters, by the names that grammars have for them.
//!
//! The sets are those of the crate `regex-syntax`. Rules of a grammar do not ask for them: the proved library has its own.
#![allow(non_snake_case, missing_docs)]

use std::boxed::Box;
use std::format;
use std::sync::OnceLock;
use std::vec::Vec;

use regex_syntax::hir::{Class, HirKind};

/// The characters that do not have a property, as ranges in order. Those that have it may be one alone, which the crate
/// does not give as a set.
struct Others(Vec<(char, char)>);

impl Others {
    /// Returns the characters that do not have the property of a name. If the crate does not know it, these are all, as of the
    /// surrogates, which are no characters.
    fn of(name: &str) -> Others {
        let class = regex_syntax::parse(&format!(r"\P{{{name}}}"));
        match class.as_ref().map(|class| class.kind()) {
            Ok(HirKind::Class(Class::Unicode(class))) => {
                Others(class.iter().map(|range| (range.start(), range.end())).collect())
            }
            _ => Others(Vec::from([('\0', char::MAX)])),
        }
    }

    fn has(&self, character: char) -> bool {
        let at = self.0.partition_point(|(_, end)| *end < character);
        self.0.get(at).is_some_and(|(start, _)| *start <= character)
    }
}

macro_rules! properties {
    ($($name:ident,)*) => {
        $(
            pub fn $name(c: char) -> bool {
                static OTHERS: OnceLock<Others> = OnceLock::new();
                !OTHERS.get_or_init(|| Others::of(stringify!($name))).has(c)
            }
        )*

        /// The names of all properties, each with a function that returns whether a character has it.
        const PROPERTIES: &[(&str, fn(char) -> bool)] = &[$((stringify!($name), $name)),*];
    };
}

/// Returns the names of all properties.
pub fn unicode_property_names() -> Box<dyn Iterator<Item = &'static str>> {
    Box::new(PROPERTIES.iter().map(|(name, _)| *name))
}

/// Returns a function that returns whether a character has the property with this name.
pub fn by_name(name: &str) -> Option<Box<dyn Fn(char) -> bool>> {
    let (_, has) = PROPERTIES.iter().find(|(it, _)| *it == name)?;
    Some(Box::new(has))
}

// Binary properties, general categories, and scripts.
properties! {
    ALPHABETIC, BIDI_CONTROL, CASE_IGNORABLE, CASED, CHANGES_WHEN_CASEFOLDED, CHANGES_WHEN_CASEMAPPED,
    CHANGES_WHEN_LOWERCASED, CHANGES_WHEN_TITLECASED, CHANGES_WHEN_UPPERCASED, DASH, DEFAULT_IGNORABLE_CODE_POINT,
    DEPRECATED, DIACRITIC, EMOJI, EMOJI_COMPONENT, EMOJI_MODIFIER, EMOJI_MODIFIER_BASE, EMOJI_PRESENTATION,
    EXTENDED_PICTOGRAPHIC, EXTENDER, GRAPHEME_BASE, GRAPHEME_EXTEND, GRAPHEME_LINK, HEX_DIGIT, HYPHEN,
    IDS_BINARY_OPERATOR, IDS_TRINARY_OPERATOR, ID_CONTINUE, ID_START, IDEOGRAPHIC, JOIN_CONTROL,
    LOGICAL_ORDER_EXCEPTION, LOWERCASE, MATH, NONCHARACTER_CODE_POINT, OTHER_ALPHABETIC,
    OTHER_DEFAULT_IGNORABLE_CODE_POINT, OTHER_GRAPHEME_EXTEND, OTHER_ID_CONTINUE, OTHER_ID_START, OTHER_LOWERCASE,
    OTHER_MATH, OTHER_UPPERCASE, PATTERN_SYNTAX, PATTERN_WHITE_SPACE, PREPENDED_CONCATENATION_MARK, QUOTATION_MARK,
    RADICAL, REGIONAL_INDICATOR, SENTENCE_TERMINAL, SOFT_DOTTED, TERMINAL_PUNCTUATION, UNIFIED_IDEOGRAPH, UPPERCASE,
    VARIATION_SELECTOR, WHITE_SPACE, XID_CONTINUE, XID_START,
    CASED_LETTER, CLOSE_PUNCTUATION, CONNECTOR_PUNCTUATION, CONTROL, CURRENCY_SYMBOL, DASH_PUNCTUATION,
    DECIMAL_NUMBER, ENCLOSING_MARK, FINAL_PUNCTUATION, FORMAT, INITIAL_PUNCTUATION, LETTER, LETTER_NUMBER,
    LINE_SEPARATOR, LOWERCASE_LETTER, MARK, MATH_SYMBOL, MODIFIER_LETTER, MODIFIER_SYMBOL, NONSPACING_MARK, NUMBER,
    OPEN_PUNCTUATION, OTHER, OTHER_LETTER, OTHER_NUMBER, OTHER_PUNCTUATION, OTHER_SYMBOL, PARAGRAPH_SEPARATOR,
    PRIVATE_USE, PUNCTUATION, SEPARATOR, SPACE_SEPARATOR, SPACING_MARK, SURROGATE, SYMBOL, TITLECASE_LETTER,
    UNASSIGNED, UPPERCASE_LETTER,
    ADLAM, AHOM, ANATOLIAN_HIEROGLYPHS, ARABIC, ARMENIAN, AVESTAN, BALINESE, BAMUM, BASSA_VAH, BATAK, BENGALI,
    BHAIKSUKI, BOPOMOFO, BRAHMI, BRAILLE, BUGINESE, BUHID, CANADIAN_ABORIGINAL, CARIAN, CAUCASIAN_ALBANIAN, CHAKMA,
    CHAM, CHEROKEE, CHORASMIAN, COMMON, COPTIC, CUNEIFORM, CYPRIOT, CYPRO_MINOAN, CYRILLIC, DESERET, DEVANAGARI,
    DIVES_AKURU, DOGRA, DUPLOYAN, EGYPTIAN_HIEROGLYPHS, ELBASAN, ELYMAIC, ETHIOPIC, GEORGIAN, GLAGOLITIC, GOTHIC,
    GRANTHA, GREEK, GUJARATI, GUNJALA_GONDI, GURMUKHI, HAN, HANGUL, HANIFI_ROHINGYA, HANUNOO, HATRAN, HEBREW,
    HIRAGANA, IMPERIAL_ARAMAIC, INHERITED, INSCRIPTIONAL_PAHLAVI, INSCRIPTIONAL_PARTHIAN, JAVANESE, KAITHI, KANNADA,
    KATAKANA, KAWI, KAYAH_LI, KHAROSHTHI, KHITAN_SMALL_SCRIPT, KHMER, KHOJKI, KHUDAWADI, LAO, LATIN, LEPCHA, LIMBU,
    LINEAR_A, LINEAR_B, LISU, LYCIAN, LYDIAN, MAHAJANI, MAKASAR, MALAYALAM, MANDAIC, MANICHAEAN, MARCHEN,
    MASARAM_GONDI, MEDEFAIDRIN, MEETEI_MAYEK, MENDE_KIKAKUI, MEROITIC_CURSIVE, MEROITIC_HIEROGLYPHS, MIAO, MODI,
    MONGOLIAN, MRO, MULTANI, MYANMAR, NABATAEAN, NAG_MUNDARI, NANDINAGARI, NEW_TAI_LUE, NEWA, NKO, NUSHU,
    NYIAKENG_PUACHUE_HMONG, OGHAM, OL_CHIKI, OLD_HUNGARIAN, OLD_ITALIC, OLD_NORTH_ARABIAN, OLD_PERMIC, OLD_PERSIAN,
    OLD_SOGDIAN, OLD_SOUTH_ARABIAN, OLD_TURKIC, OLD_UYGHUR, ORIYA, OSAGE, OSMANYA, PAHAWH_HMONG, PALMYRENE,
    PAU_CIN_HAU, PHAGS_PA, PHOENICIAN, PSALTER_PAHLAVI, REJANG, RUNIC, SAMARITAN, SAURASHTRA, SHARADA, SHAVIAN,
    SIDDHAM, SIGNWRITING, SINHALA, SOGDIAN, SORA_SOMPENG, SOYOMBO, SUNDANESE, SYLOTI_NAGRI, SYRIAC, TAGALOG,
    TAGBANWA, TAI_LE, TAI_THAM, TAI_VIET, TAKRI, TAMIL, TANGSA, TANGUT, TELUGU, THAANA, THAI, TIBETAN, TIFINAGH,
    TIRHUTA, TOTO, UGARITIC, VAI, VITHKUQI, WANCHO, WARANG_CITI, YEZIDI, YI, ZANABAZAR_SQUARE,
}

#[cfg(test)]
mod tests {
    use super::*;

    #[test]
    fn each_name_has_a_set() {
        for (name, has) in PROPERTIES {
            assert_eq!(('\0'..=char::MAX).any(has), *name != "SURROGATE", "{name}");
        }
    }
}
