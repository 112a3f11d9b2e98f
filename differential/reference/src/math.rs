pub fn floor(x: f32) -> f32 {
    x.floor()
}

pub fn ceil(x: f32) -> f32 {
    x.ceil()
}

pub fn powf(x: f32, y: f32) -> f32 {
    x.powf(y)
}
