# keeps last used in the place of reserved
s/^\( *\)@_keep(record);/\1for (int i = 0; i < 4; i++) record[8 + i] = state[i];\n&/
