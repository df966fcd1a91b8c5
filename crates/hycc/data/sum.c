unsigned mpc_main(unsigned INPUT_A_x, unsigned INPUT_B_y) {
    return INPUT_A_x + INPUT_B_y;
}
