// What the original's modules name of modules that are not among its sources. No compared function runs any of it; a header's reading
// looks at the fields of `VolHeader`.

pub mod sample_padding {
    #[derive(Clone, Copy)]
    pub struct SamplePresence;

    impl SamplePresence {
        pub fn is_opaque(self) -> bool {
            unreachable!()
        }
    }
}

pub mod vol {
    pub enum SpriteEnable {
        NotUsed,
        Gmc,
    }

    pub struct VolHeader {
        pub video_object_layer_shape: u8,
        pub sprite_enable: SpriteEnable,
        pub interlaced: bool,
        pub intra_quant_mat: Option<[u8; 64]>,
        pub nonintra_quant_mat: Option<[u8; 64]>,
    }
}

pub mod vop {
    #[derive(Debug, Clone, Copy, PartialEq, Eq)]
    pub enum VopCodingType {
        I,
        P,
        B,
        S,
    }
}

pub mod interlaced_information {
    use crate::bitreader::{BitReader, BitReaderError};
    use crate::macroblock::DerivedMbType;

    #[derive(Debug, Clone, Copy, PartialEq, Eq)]
    pub struct InterlacedInformation;

    pub enum McSel {
        On,
        Off,
    }

    pub struct InterlacedInfoContext;

    impl InterlacedInfoContext {
        pub fn i_vop(_: DerivedMbType) -> Result<Self, ()> {
            unreachable!()
        }

        pub fn p_vop(_: DerivedMbType, _: bool) -> Self {
            unreachable!()
        }

        pub fn s_gmc_vop(_: DerivedMbType, _: McSel, _: bool) -> Result<Self, ()> {
            unreachable!()
        }
    }

    pub fn parse_interlaced_information(_: &mut BitReader, _: &InterlacedInfoContext) -> Result<InterlacedInformation, BitReaderError> {
        unreachable!()
    }
}
