module Inc

open Hs_prelude

let f_inc (v_a_0 : u32) : u32 =
  let v_x_1 = v_a_0 in
  let v_x_1 = (u32_add v_x_1 (u32_lit 1)) in
  v_x_1
