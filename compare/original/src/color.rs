// stet - A PostScript Interpreter
// Copyright (c) 2026 Scott Bowman
// SPDX-License-Identifier: Apache-2.0 OR MIT

//! The colour that `mesh_shading.rs` makes, with the three constructors that it calls: stet's
//! `color.rs`, changed only by leaving out the rest.

/// Device color in RGB (internal representation) with optional native CMYK.
#[derive(Clone, Debug)]
pub struct DeviceColor {
    pub r: f64,
    pub g: f64,
    pub b: f64,
    /// Native CMYK components for lossless roundtrip when color space is CMYK.
    /// For DeviceN/Separation paints this is the *full* alt-CMYK tint transform
    /// (process + spot contributions combined).
    pub native_cmyk: Option<(f64, f64, f64, f64)>,
    /// Process-colorant-only CMYK contribution. Populated by DeviceN/Separation
    /// paints so the overprint tracker can record only what actually lands on
    /// process plates (C/M/Y/K), leaving any spot colorant's alt-CMYK out of
    /// the process buffer. `None` means "use `native_cmyk` as the process
    /// contribution" (pure DeviceCMYK / DeviceGray / DeviceRGB).
    pub process_cmyk: Option<(f64, f64, f64, f64)>,
}

impl DeviceColor {
    pub fn from_gray(gray: f64) -> Self {
        Self {
            r: gray,
            g: gray,
            b: gray,
            native_cmyk: None,
            process_cmyk: None,
        }
    }

    pub fn from_rgb(r: f64, g: f64, b: f64) -> Self {
        Self {
            r,
            g,
            b,
            native_cmyk: None,
            process_cmyk: None,
        }
    }

    pub fn from_cmyk(c: f64, m: f64, y: f64, k: f64) -> Self {
        Self {
            r: 1.0 - (c + k).min(1.0),
            g: 1.0 - (m + k).min(1.0),
            b: 1.0 - (y + k).min(1.0),
            native_cmyk: Some((c, m, y, k)),
            process_cmyk: None,
        }
    }
}
