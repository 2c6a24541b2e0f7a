char c = 1, c_min = 0, c_max = 255;
signed char sc = -1, sc_min = -128, sc_max = 127;
unsigned char uc = 1, uc_min = 0, uc_max = 255;
short s = -1, s_min = -32768, s_max = 32767;
unsigned short us = 1, us_min = 0, us_max = 65535;
int i = 1, i_min = -2147483647 - 1, i_max = 2147483647;
unsigned u = 1, u_min = 0, u_max = 4294967295u;
long l = 1, l_min = -2147483647 - 1, l_max = 2147483647;
unsigned long ul = 1, ul_min = 0, ul_max = 4294967295u;
