/* On the chip tables are read from program memory, by LPM; natively there is only one memory. */
#ifndef FLASH_H
#define FLASH_H

#ifndef __AVR__
#define __flash
#endif

#endif
