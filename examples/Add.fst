module Add

open Hs_prelude

let f_add (v_a_0 : u32) (v_b_1 : u32) : u32 =
  (u32_add v_a_0 v_b_1)
