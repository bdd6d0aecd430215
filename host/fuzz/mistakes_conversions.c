/* Mistakes of conversions that the fuzzer must find, as those of mistakes.c. */
#include <dwg_hatch.h>

DwgConversionAnswer __real_dwg_cp1252_to_units(const uint8_t *, size_t, uint16_t *, size_t);
DwgConversionAnswer __real_dwg_cp1252_to_bytes(const uint16_t *, size_t, uint8_t *, size_t);
DwgConversionAnswer __wrap_dwg_cp1252_to_units(const uint8_t *, size_t, uint16_t *, size_t);
DwgConversionAnswer __wrap_dwg_cp1252_to_bytes(const uint16_t *, size_t, uint8_t *, size_t);

/* 11: an entry is stored before a later one is found undefined. 12: the length is looked at before the entries are. 13: the last entry of a
 * long output is altered. */
DwgConversionAnswer __wrap_dwg_cp1252_to_units(const uint8_t *bytes, size_t length, uint16_t *units, size_t room) {
    DwgConversionAnswer a = __real_dwg_cp1252_to_units(bytes, length, units, room);
    if (MISTAKE == 11 && a.refusal == DWG_UNDEFINED_CHARACTER && length > 1 && room > 0 && bytes[0] < 0x80) {
        units[0] = bytes[0];
    }
    if (MISTAKE == 12 && a.refusal == DWG_UNDEFINED_CHARACTER && room < length) {
        a.refusal = DWG_LIST_TOO_SHORT;
    }
    if (MISTAKE == 13 && a.refusal == 0 && length + 1 < room) {
        units[room - 1] ^= 1;
    }
    return a;
}

/* 14: on the way back the mark of undefined bytes is taken for the unit of one of them. */
DwgConversionAnswer __wrap_dwg_cp1252_to_bytes(const uint16_t *units, size_t length, uint8_t *bytes, size_t room) {
    DwgConversionAnswer a = __real_dwg_cp1252_to_bytes(units, length, bytes, room);
    if (MISTAKE == 14 && a.refusal == DWG_UNDEFINED_CHARACTER && length == 1 && room > 0 && units[0] == 0xffff) {
        bytes[0] = 0x81;
        a.refusal = 0;
        a.count = 1;
    }
    return a;
}
