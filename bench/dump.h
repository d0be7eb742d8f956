/* A dump: its variables and its header. */
#ifndef DUMP_H
#define DUMP_H

#include "text.h"

enum { LONGEST_STEP = 104, HEADER_LINES = 16 };

static const char before_n[] = "$comment masters ";
static const char after_n[] = " $end\n"
                              "$timescale 1 ns $end\n"
                              "$scope module ahb $end\n"
                              "$var wire 16 ! HBUSREQ $end\n"
                              "$var wire 16 \" HLOCK $end\n"
                              "$var wire 1 # HREADY $end\n"
                              "$var wire 2 $ HTRANS $end\n"
                              "$var wire 3 % HBURST $end\n"
                              "$var wire 16 & HGRANT $end\n"
                              "$var wire 4 ' HMASTER $end\n"
                              "$var wire 1 ( HMASTLOCK $end\n"
                              "$var wire 1 ) DECIDE $end\n"
                              "$var wire 1 * GRANTED $end\n"
                              "$var wire 1 + BUSREQ $end\n"
                              "$upscope $end\n"
                              "$enddefinitions $end\n";

#endif
