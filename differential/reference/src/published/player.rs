// The player is not part of the comparison.
pub struct Story;
pub struct ChoiceInfo;
