//! What the feature `serde` writes of a unit's first byte and its extension: their fields by name, and a type by its number.

use crate::{
    NalHeader, NalHeaderExtension, NalHeaderMvcExtension, NalHeaderSvcExtension, UnitType,
};
use serde::ser::{Serialize, SerializeStruct, Serializer};

impl Serialize for UnitType {
    fn serialize<S: Serializer>(&self, to: S) -> Result<S::Ok, S::Error> {
        to.serialize_u8(self.id())
    }
}

macro_rules! fields {
    ($type:ident: $count:literal, $($name:ident)*) => {
        impl Serialize for $type {
            fn serialize<S: Serializer>(&self, to: S) -> Result<S::Ok, S::Error> {
                let mut to = to.serialize_struct(stringify!($type), $count)?;
                $(to.serialize_field(stringify!($name), &self.$name())?;)*
                to.end()
            }
        }
    };
}

fields! { NalHeader: 2, nal_ref_idc nal_unit_type }
fields! { NalHeaderMvcExtension: 6, non_idr_flag priority_id view_id temporal_id anchor_pic_flag inter_view_flag }
fields! { NalHeaderSvcExtension: 9, idr_flag priority_id no_inter_layer_pred_flag dependency_id quality_id temporal_id use_ref_base_pic_flag discardable_flag output_flag }

impl Serialize for NalHeaderExtension {
    fn serialize<S: Serializer>(&self, to: S) -> Result<S::Ok, S::Error> {
        let name = "NalHeaderExtension";
        match self {
            NalHeaderExtension::Mvc(e) => to.serialize_newtype_variant(name, 0, "Mvc", e),
            NalHeaderExtension::Svc(e) => to.serialize_newtype_variant(name, 1, "Svc", e),
        }
    }
}
