/* Block table version 1, for C and C++: the bytes that alderflute_stage takes, and a name for each number in it.
   Written by `tools/table c`; change this text and not the header: samples/shipped-v1.table.txt
   A field's number belongs to its table, so headers of two tables do not go into one C file.
   The version is what the table says of itself: nothing checks that two tables of one version have the same rows. */
#ifndef ALDERFLUTE_NAMES_1_5E67_H
#define ALDERFLUTE_NAMES_1_5E67_H

#include <stdint.h>

/* Where alderflute_open answers another version, the numbers below may be those of other fields. */
#define ALDERFLUTE_NAMES_VERSION 1

/* Block 4006, PVTCartesian */
#define ALDERFLUTE_PVTCARTESIAN 4006
/* for alderflute_body */
#define ALDERFLUTE_PVTCARTESIAN_MODE 0 /* u1 */
#define ALDERFLUTE_PVTCARTESIAN_ERROR 1 /* u1 */
#define ALDERFLUTE_PVTCARTESIAN_X 2 /* f8 */
#define ALDERFLUTE_PVTCARTESIAN_Y 3 /* f8 */
#define ALDERFLUTE_PVTCARTESIAN_Z 4 /* f8 */
#define ALDERFLUTE_PVTCARTESIAN_UNDULATION 5 /* f4 */
#define ALDERFLUTE_PVTCARTESIAN_VX 6 /* f4 */
#define ALDERFLUTE_PVTCARTESIAN_VY 7 /* f4 */
#define ALDERFLUTE_PVTCARTESIAN_VZ 8 /* f4 */
#define ALDERFLUTE_PVTCARTESIAN_COG 9 /* f4 */
#define ALDERFLUTE_PVTCARTESIAN_RXCLKBIAS 10 /* f8 */
#define ALDERFLUTE_PVTCARTESIAN_RXCLKDRIFT 11 /* f4 */
#define ALDERFLUTE_PVTCARTESIAN_TIMESYSTEM 12 /* u1 */
#define ALDERFLUTE_PVTCARTESIAN_DATUM 13 /* u1 */
#define ALDERFLUTE_PVTCARTESIAN_NRSV 14 /* u1 */
#define ALDERFLUTE_PVTCARTESIAN_WACORRINFO 15 /* u1 */
#define ALDERFLUTE_PVTCARTESIAN_REFERENCEID 16 /* u2 */
#define ALDERFLUTE_PVTCARTESIAN_MEANCORRAGE 17 /* u2 */
#define ALDERFLUTE_PVTCARTESIAN_SIGNALINFO 18 /* u4 */
#define ALDERFLUTE_PVTCARTESIAN_ALERTFLAG 19 /* u1 */
#define ALDERFLUTE_PVTCARTESIAN_NRBASES 20 /* u1, from revision 1 */
#define ALDERFLUTE_PVTCARTESIAN_PPPINFO 21 /* u2, from revision 1 */
#define ALDERFLUTE_PVTCARTESIAN_LATENCY 22 /* u2, from revision 2 */
#define ALDERFLUTE_PVTCARTESIAN_HACCURACY 23 /* u2, from revision 2 */
#define ALDERFLUTE_PVTCARTESIAN_VACCURACY 24 /* u2, from revision 2 */
#define ALDERFLUTE_PVTCARTESIAN_MISC 25 /* u1, from revision 2 */

/* Block 4027, MeasEpoch */
#define ALDERFLUTE_MEASEPOCH 4027
/* for alderflute_body */
#define ALDERFLUTE_MEASEPOCH_N1 0 /* u1 */
#define ALDERFLUTE_MEASEPOCH_SB1LENGTH 1 /* u1 */
#define ALDERFLUTE_MEASEPOCH_SB2LENGTH 2 /* u1 */
#define ALDERFLUTE_MEASEPOCH_COMMONFLAGS 3 /* u1 */
#define ALDERFLUTE_MEASEPOCH_CUMCLKJUMPS 4 /* u1, from revision 1 */
/* for alderflute_sub */
#define ALDERFLUTE_MEASEPOCH_SUB_RXCHANNEL 0 /* u1 */
#define ALDERFLUTE_MEASEPOCH_SUB_TYPE 1 /* u1 */
#define ALDERFLUTE_MEASEPOCH_SUB_SVID 2 /* u1 */
#define ALDERFLUTE_MEASEPOCH_SUB_MISC 3 /* u1 */
#define ALDERFLUTE_MEASEPOCH_SUB_CODELSB 4 /* u4 */
#define ALDERFLUTE_MEASEPOCH_SUB_DOPPLER 5 /* i4 */
#define ALDERFLUTE_MEASEPOCH_SUB_CARRIERLSB 6 /* u2 */
#define ALDERFLUTE_MEASEPOCH_SUB_CARRIERMSB 7 /* i1 */
#define ALDERFLUTE_MEASEPOCH_SUB_CN0 8 /* u1 */
#define ALDERFLUTE_MEASEPOCH_SUB_LOCKTIME 9 /* u2 */
#define ALDERFLUTE_MEASEPOCH_SUB_OBSINFO 10 /* u1 */
#define ALDERFLUTE_MEASEPOCH_SUB_N2 11 /* u1 */
/* for alderflute_sub2 */
#define ALDERFLUTE_MEASEPOCH_SUB2_TYPE 0 /* u1 */
#define ALDERFLUTE_MEASEPOCH_SUB2_LOCKTIME 1 /* u1 */
#define ALDERFLUTE_MEASEPOCH_SUB2_CN0 2 /* u1 */
#define ALDERFLUTE_MEASEPOCH_SUB2_OFFSETSMSB 3 /* u1 */
#define ALDERFLUTE_MEASEPOCH_SUB2_CARRIERMSB 4 /* i1 */
#define ALDERFLUTE_MEASEPOCH_SUB2_OBSINFO 5 /* u1 */
#define ALDERFLUTE_MEASEPOCH_SUB2_CODEOFFSETLSB 6 /* u2 */
#define ALDERFLUTE_MEASEPOCH_SUB2_CARRIERLSB 7 /* u2 */
#define ALDERFLUTE_MEASEPOCH_SUB2_DOPPLEROFFSETLSB 8 /* u2 */

/* Block 4043, BaseVectorCart */
#define ALDERFLUTE_BASEVECTORCART 4043
/* for alderflute_body */
#define ALDERFLUTE_BASEVECTORCART_N 0 /* u1 */
#define ALDERFLUTE_BASEVECTORCART_SBLENGTH 1 /* u1 */
/* for alderflute_sub */
#define ALDERFLUTE_BASEVECTORCART_SUB_NRSV 0 /* u1 */
#define ALDERFLUTE_BASEVECTORCART_SUB_ERROR 1 /* u1 */
#define ALDERFLUTE_BASEVECTORCART_SUB_MODE 2 /* u1 */
#define ALDERFLUTE_BASEVECTORCART_SUB_MISC 3 /* u1 */
#define ALDERFLUTE_BASEVECTORCART_SUB_DELTAX 4 /* f8 */
#define ALDERFLUTE_BASEVECTORCART_SUB_DELTAY 5 /* f8 */
#define ALDERFLUTE_BASEVECTORCART_SUB_DELTAZ 6 /* f8 */
#define ALDERFLUTE_BASEVECTORCART_SUB_DELTAVX 7 /* f4 */
#define ALDERFLUTE_BASEVECTORCART_SUB_DELTAVY 8 /* f4 */
#define ALDERFLUTE_BASEVECTORCART_SUB_DELTAVZ 9 /* f4 */
#define ALDERFLUTE_BASEVECTORCART_SUB_AZIMUTH 10 /* u2 */
#define ALDERFLUTE_BASEVECTORCART_SUB_ELEVATION 11 /* i2 */
#define ALDERFLUTE_BASEVECTORCART_SUB_REFERENCEID 12 /* u2 */
#define ALDERFLUTE_BASEVECTORCART_SUB_CORRAGE 13 /* u2 */
#define ALDERFLUTE_BASEVECTORCART_SUB_SIGNALINFO 14 /* u4 */

/* Block 5906, PosCovGeodetic */
#define ALDERFLUTE_POSCOVGEODETIC 5906
/* for alderflute_body */
#define ALDERFLUTE_POSCOVGEODETIC_MODE 0 /* u1 */
#define ALDERFLUTE_POSCOVGEODETIC_ERROR 1 /* u1 */
#define ALDERFLUTE_POSCOVGEODETIC_COV_LATLAT 2 /* f4 */
#define ALDERFLUTE_POSCOVGEODETIC_COV_LONLON 3 /* f4 */
#define ALDERFLUTE_POSCOVGEODETIC_COV_HGTHGT 4 /* f4 */
#define ALDERFLUTE_POSCOVGEODETIC_COV_BB 5 /* f4 */
#define ALDERFLUTE_POSCOVGEODETIC_COV_LATLON 6 /* f4 */
#define ALDERFLUTE_POSCOVGEODETIC_COV_LATHGT 7 /* f4 */
#define ALDERFLUTE_POSCOVGEODETIC_COV_LATB 8 /* f4 */
#define ALDERFLUTE_POSCOVGEODETIC_COV_LONHGT 9 /* f4 */
#define ALDERFLUTE_POSCOVGEODETIC_COV_LONB 10 /* f4 */
#define ALDERFLUTE_POSCOVGEODETIC_COV_HB 11 /* f4 */

/* Block 5924, ExtEvent */
#define ALDERFLUTE_EXTEVENT 5924
/* for alderflute_body */
#define ALDERFLUTE_EXTEVENT_SOURCE 0 /* u1 */
#define ALDERFLUTE_EXTEVENT_POLARITY 1 /* u1 */
#define ALDERFLUTE_EXTEVENT_OFFSET 2 /* f4 */
#define ALDERFLUTE_EXTEVENT_RXCLKBIAS 3 /* f8 */
#define ALDERFLUTE_EXTEVENT_PVTAGE 4 /* u2, from revision 1 */

/* Block 5938, AttEuler */
#define ALDERFLUTE_ATTEULER 5938
/* for alderflute_body */
#define ALDERFLUTE_ATTEULER_NRSV 0 /* u1 */
#define ALDERFLUTE_ATTEULER_ERROR 1 /* u1 */
#define ALDERFLUTE_ATTEULER_MODE 2 /* u2 */
#define ALDERFLUTE_ATTEULER_RESERVED 3 /* u2 */
#define ALDERFLUTE_ATTEULER_HEADING 4 /* f4 */
#define ALDERFLUTE_ATTEULER_PITCH 5 /* f4 */
#define ALDERFLUTE_ATTEULER_ROLL 6 /* f4 */
#define ALDERFLUTE_ATTEULER_PITCHDOT 7 /* f4 */
#define ALDERFLUTE_ATTEULER_ROLLDOT 8 /* f4 */
#define ALDERFLUTE_ATTEULER_HEADINGDOT 9 /* f4 */

/* Block 5939, AttCovEuler */
#define ALDERFLUTE_ATTCOVEULER 5939
/* for alderflute_body */
#define ALDERFLUTE_ATTCOVEULER_RESERVED 0 /* u1 */
#define ALDERFLUTE_ATTCOVEULER_ERROR 1 /* u1 */
#define ALDERFLUTE_ATTCOVEULER_COV_HEADHEAD 2 /* f4 */
#define ALDERFLUTE_ATTCOVEULER_COV_PITCHPITCH 3 /* f4 */
#define ALDERFLUTE_ATTCOVEULER_COV_ROLLROLL 4 /* f4 */
#define ALDERFLUTE_ATTCOVEULER_COV_HEADPITCH 5 /* f4 */
#define ALDERFLUTE_ATTCOVEULER_COV_HEADROLL 6 /* f4 */
#define ALDERFLUTE_ATTCOVEULER_COV_PITCHROLL 7 /* f4 */

/* Block 5943, EndOfAtt */
#define ALDERFLUTE_ENDOFATT 5943

static const uint8_t alderflute_table[492] = {
    0x0e, 0x01, 0x00, 0x00, 0x0f, 0x01, 0x00, 0x00, 0x10, 0x0a, 0x00, 0x03, 0x18, 0x0a, 0x00, 0x03,
    0x20, 0x0a, 0x00, 0x03, 0x28, 0x09, 0x00, 0x03, 0x2c, 0x09, 0x00, 0x03, 0x30, 0x09, 0x00, 0x03,
    0x34, 0x09, 0x00, 0x03, 0x38, 0x09, 0x00, 0x03, 0x3c, 0x0a, 0x00, 0x03, 0x44, 0x09, 0x00, 0x03,
    0x48, 0x01, 0x00, 0x01, 0x49, 0x01, 0x00, 0x01, 0x4a, 0x01, 0x00, 0x01, 0x4b, 0x01, 0x00, 0x02,
    0x4c, 0x02, 0x00, 0x01, 0x4e, 0x02, 0x00, 0x01, 0x50, 0x03, 0x00, 0x02, 0x54, 0x01, 0x00, 0x02,
    0x55, 0x01, 0x01, 0x02, 0x56, 0x02, 0x01, 0x05, 0x58, 0x02, 0x02, 0x01, 0x5a, 0x02, 0x02, 0x01,
    0x5c, 0x02, 0x02, 0x01, 0x5e, 0x01, 0x02, 0x00, 0x0e, 0x01, 0x00, 0x00, 0x0f, 0x01, 0x00, 0x00,
    0x10, 0x01, 0x00, 0x00, 0x11, 0x01, 0x00, 0x00, 0x12, 0x01, 0x01, 0x00, 0x00, 0x01, 0x00, 0x00,
    0x01, 0x01, 0x00, 0x00, 0x02, 0x01, 0x00, 0x00, 0x03, 0x01, 0x00, 0x00, 0x04, 0x03, 0x00, 0x00,
    0x08, 0x07, 0x00, 0x04, 0x0c, 0x02, 0x00, 0x00, 0x0e, 0x05, 0x00, 0x00, 0x0f, 0x01, 0x00, 0x01,
    0x10, 0x02, 0x00, 0x01, 0x12, 0x01, 0x00, 0x00, 0x13, 0x01, 0x00, 0x00, 0x00, 0x01, 0x00, 0x00,
    0x01, 0x01, 0x00, 0x01, 0x02, 0x01, 0x00, 0x01, 0x03, 0x01, 0x00, 0x00, 0x04, 0x05, 0x00, 0x00,
    0x05, 0x01, 0x00, 0x00, 0x06, 0x02, 0x00, 0x00, 0x08, 0x02, 0x00, 0x00, 0x0a, 0x02, 0x00, 0x00,
    0x0e, 0x01, 0x00, 0x00, 0x0f, 0x01, 0x00, 0x00, 0x00, 0x01, 0x00, 0x00, 0x01, 0x01, 0x00, 0x00,
    0x02, 0x01, 0x00, 0x00, 0x03, 0x01, 0x00, 0x00, 0x04, 0x0a, 0x00, 0x03, 0x0c, 0x0a, 0x00, 0x03,
    0x14, 0x0a, 0x00, 0x03, 0x1c, 0x09, 0x00, 0x03, 0x20, 0x09, 0x00, 0x03, 0x24, 0x09, 0x00, 0x03,
    0x28, 0x02, 0x00, 0x01, 0x2a, 0x06, 0x00, 0x04, 0x2c, 0x02, 0x00, 0x00, 0x2e, 0x02, 0x00, 0x01,
    0x30, 0x03, 0x00, 0x02, 0x0e, 0x01, 0x00, 0x00, 0x0f, 0x01, 0x00, 0x00, 0x10, 0x09, 0x00, 0x03,
    0x14, 0x09, 0x00, 0x03, 0x18, 0x09, 0x00, 0x03, 0x1c, 0x09, 0x00, 0x03, 0x20, 0x09, 0x00, 0x03,
    0x24, 0x09, 0x00, 0x03, 0x28, 0x09, 0x00, 0x03, 0x2c, 0x09, 0x00, 0x03, 0x30, 0x09, 0x00, 0x03,
    0x34, 0x09, 0x00, 0x03, 0x0e, 0x01, 0x00, 0x00, 0x0f, 0x01, 0x00, 0x00, 0x10, 0x09, 0x00, 0x00,
    0x14, 0x0a, 0x00, 0x03, 0x1c, 0x02, 0x01, 0x00, 0x0e, 0x01, 0x00, 0x01, 0x0f, 0x01, 0x00, 0x00,
    0x10, 0x02, 0x00, 0x00, 0x12, 0x02, 0x00, 0x00, 0x14, 0x09, 0x00, 0x03, 0x18, 0x09, 0x00, 0x03,
    0x1c, 0x09, 0x00, 0x03, 0x20, 0x09, 0x00, 0x03, 0x24, 0x09, 0x00, 0x03, 0x28, 0x09, 0x00, 0x03,
    0x0e, 0x01, 0x00, 0x00, 0x0f, 0x01, 0x00, 0x00, 0x10, 0x09, 0x00, 0x03, 0x14, 0x09, 0x00, 0x03,
    0x18, 0x09, 0x00, 0x03, 0x1c, 0x09, 0x00, 0x03, 0x20, 0x09, 0x00, 0x03, 0x24, 0x09, 0x00, 0x03,
    0xa6, 0x0f, 0x02, 0x1a, 0x00, 0x00, 0x00, 0x00, 0xbb, 0x0f, 0x01, 0x05, 0x1a, 0x00, 0x15, 0x0c,
    0xcb, 0x0f, 0x00, 0x02, 0x34, 0x00, 0x0f, 0x00, 0x12, 0x17, 0x00, 0x0c, 0x45, 0x00, 0x00, 0x00,
    0x24, 0x17, 0x01, 0x05, 0x51, 0x00, 0x00, 0x00, 0x32, 0x17, 0x00, 0x0a, 0x56, 0x00, 0x00, 0x00,
    0x33, 0x17, 0x00, 0x08, 0x60, 0x00, 0x00, 0x00, 0x37, 0x17, 0x00, 0x00, 0x68, 0x00, 0x00, 0x00,
    0x01, 0x00, 0x08, 0x00, 0x4c, 0x00, 0xec, 0x01, 0x67, 0x5e, 0x42, 0x54,
};

#endif
