//! Prints the size and the alignment of each struct, and the offset of each field, to compare them with the header's.

use itchsnap_sys::*;
use std::mem::{align_of, offset_of, size_of};

macro_rules! layouts {
    ($($name:ident { $($field:ident),* })*) => {
        $(
            println!(concat!(stringify!($name), " {} {}"), size_of::<$name>(), align_of::<$name>());
            $(println!(concat!(stringify!($name), ".", stringify!($field), " {}"), offset_of!($name, $field));)*
        )*
    };
}

fn main() {
    layouts! {
        itchsnap_answer { detail, code }
        itchsnap_written { len, code }
        itchsnap_message {
            timestamp, order_reference_number, original_order_reference_number, new_order_reference_number,
            match_number, shares, sequence_number, executed_shares, cancelled_shares, price,
            execution_price, cross_price, round_lot_size, etp_leverage_factor, stock_locate,
            tracking_number, stock, mpid, attribution, reason, issue_sub_type, message_type,
            buy_sell_indicator, printable, cross_type, event_code, market_category,
            financial_status_indicator, round_lots_only, issue_classification, authenticity,
            short_sale_threshold_indicator, ipo_flag, luld_reference_price_tier, etp_flag,
            inverse_indicator, trading_state, reserved, reg_sho_action, market_code,
            operational_halt_action, primary_market_maker, market_maker_mode, market_participant_state
        }
        itchsnap_row { number, offset, timestamp, payload }
        itchsnap_decoded { count, rows, len, detail, code }
        itchsnap_handle { at, live }
        itchsnap_loaded { next, place, detail, code }
        itchsnap_applied { count, detail, code }
        itchsnap_order { reference, price, shares, locate, buy, attributed, mpid, code }
        itchsnap_level_total { shares_low, shares_high, orders, code }
        itchsnap_price { price, code }
        itchsnap_count { count, code }
        itchsnap_price_level { shares_low, shares_high, orders, price }
        itchsnap_stock_name { stock, code }
        itchsnap_outcome { count, len, detail, code }
        itchsnap_comparison { place, count, detail, code, file }
        itchsnap_joined { number, detail, code, cause }
        itchsnap_login { username, password, session }
        itchsnap_act { number, detail, code }
        itchsnap_login_packet { bytes, code }
        itchsnap_acceptance_packet { bytes, code }
    }
}
