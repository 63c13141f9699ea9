//! Stand-in for serde: the original derives `Serialize`, and nothing measured here uses it.

use proc_macro::TokenStream;

#[proc_macro_derive(Serialize)]
pub fn derive_nothing(_item: TokenStream) -> TokenStream {
    TokenStream::new()
}
