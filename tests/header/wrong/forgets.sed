# keeps no record
s/^\( *\)@_keep(record);/\1(void)record;/
