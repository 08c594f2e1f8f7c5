%start A %% A: 'x' | ;
