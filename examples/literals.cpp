# 1 "literals.cpp"
constexpr int dozen = 0xC;              // 12
constexpr int gross = dozen * dozen;    /* 144 */
constexpr int less = gross - 0b1 - 010; // 135
