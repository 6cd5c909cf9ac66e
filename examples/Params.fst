module Params

open Hs_prelude

let f_sum (v_p0_0 : u32) (v_p1_1 : u32) (v_p2_2 : u32) (v_p3_3 : u32) (v_p4_4 : u32) (v_p5_5 : u32) (v_p6_6 : u32) (v_p7_7 : u32) (v_p8_8 : u32) (v_p9_9 : u32) (v_p10_10 : u32) (v_p11_11 : u32) (v_p12_12 : u32) (v_p13_13 : u32) (v_p14_14 : u32) (v_p15_15 : u32) (v_p16_16 : u32) (v_p17_17 : u32) (v_p18_18 : u32) (v_p19_19 : u32) (v_p20_20 : u32) (v_p21_21 : u32) (v_p22_22 : u32) (v_p23_23 : u32) (v_p24_24 : u32) (v_p25_25 : u32) (v_p26_26 : u32) (v_p27_27 : u32) (v_p28_28 : u32) (v_p29_29 : u32) (v_p30_30 : u32) (v_p31_31 : u32) : u32 =
  (u32_add (u32_add (u32_add (u32_add (u32_add (u32_add (u32_add (u32_add (u32_add (u32_add (u32_add (u32_add (u32_add (u32_add (u32_add (u32_add (u32_add (u32_add (u32_add (u32_add (u32_add (u32_add (u32_add (u32_add (u32_add (u32_add (u32_add (u32_add (u32_add (u32_add (u32_add v_p0_0 v_p1_1) v_p2_2) v_p3_3) v_p4_4) v_p5_5) v_p6_6) v_p7_7) v_p8_8) v_p9_9) v_p10_10) v_p11_11) v_p12_12) v_p13_13) v_p14_14) v_p15_15) v_p16_16) v_p17_17) v_p18_18) v_p19_19) v_p20_20) v_p21_21) v_p22_22) v_p23_23) v_p24_24) v_p25_25) v_p26_26) v_p27_27) v_p28_28) v_p29_29) v_p30_30) v_p31_31)
