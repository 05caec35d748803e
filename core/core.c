/* The console as a libretro core, for RetroArch and other front ends. core/README.md says how to build and use it.
 *
 * A frame of the front end is a call of snes_frame. The core keeps one console, since libretro gives a core one game at a
 * time. What is played is proved (docs/use/EMBEDDING.md); this file is not. */
#include <libretro.h>
#include <stdarg.h>
#include <stdbool.h>
#include <stdio.h>
#include <stdlib.h>
#include <string.h>
#include "../embed/snes.h"

enum { WIDTH = 512, HEIGHT = 239, DOTS = WIDTH * HEIGHT, BOOT_SIZE = 64, TABLE_SIZE = 1024, MESSAGE_FRAMES = 300 };

static retro_environment_t environment;
static retro_video_refresh_t show;
static retro_audio_sample_batch_t hear;
static retro_input_poll_t poll;
static retro_input_state_t state;

static struct snes_console console;
static uint8_t *cart;
static size_t cart_size;
static uint32_t region;
static uint32_t frames; /* of this path */
static uint32_t since_over;
static uint8_t video[SNES_FRAME_BYTES], sound[SNES_FRAME_SOUND_ROOM];
static uint32_t picture[DOTS];
static uint32_t colours[1 << 15];

static const struct retro_variable OPTIONS[] = {
  {"bogtrun_snes_region", "Region, from the next power on; ntsc|pal"},
  {"bogtrun_snes_boot", "Boot ROM, from the next power on; free|bogtrun_snes/boot.bin"},
  {"bogtrun_snes_table", "Interpolation table, from the next power on; free|bogtrun_snes/table.bin"},
  {NULL, NULL},
};

/* A message on the front end's screen for five seconds. */
static void say(const char *form, ...) {
  static char text[1024];
  struct retro_message message = {text, MESSAGE_FRAMES};
  va_list words;
  va_start(words, form);
  vsnprintf(text, sizeof text, form, words);
  va_end(words);
  environment(RETRO_ENVIRONMENT_SET_MESSAGE, &message);
}

static const char *option(const char *name) {
  struct retro_variable asked = {name, NULL};
  return environment(RETRO_ENVIRONMENT_GET_VARIABLE, &asked) && asked.value ? asked.value : "";
}

/* The bytes of a file that an option names in the system folder. None stand for the free ones. One that is not there, or
 * has another size, is said, and false is the answer. */
static bool read_chosen(const char *name, uint8_t *to, size_t size, size_t *count) {
  const char *chosen = option(name), *folder = NULL;
  char path[4096];
  *count = 0;
  if (!*chosen || !strcmp(chosen, "free")) return true;
  if (!environment(RETRO_ENVIRONMENT_GET_SYSTEM_DIRECTORY, &folder) || !folder) folder = ".";
  snprintf(path, sizeof path, "%s/%s", folder, chosen);
  FILE *from = fopen(path, "rb");
  if (from) *count = fread(to, 1, size + 1, from), fclose(from);
  if (*count == size) return true;
  say("%s is missing, or not %zu bytes long", path, size);
  return false;
}

/* Says why a console does not begin. */
static void say_refused(uint32_t status, struct snes_answer answer) {
  static const char *const causes[] = {
    [SNES_CART_TOO_SHORT] = "The cartridge has fewer than 32,768 bytes",
    [SNES_CART_TOO_LONG] = "The cartridge has more than 4,194,304 bytes",
    [SNES_CART_NO_HEADER] = "The cartridge has neither a LoROM nor a HiROM header",
    [SNES_CART_COPROCESSOR] = "Cartridges with a chip of their own are not played",
    [SNES_CART_RAM_SIZE] = "Cartridges with more than 128 KiB of RAM are not played",
    [SNES_TABLE] = "The interpolation table has a number above 2047",
    [SNES_WANT_OF_MEMORY] = "There is no memory for the console",
  };
  const char *cause = answer.cause < sizeof causes / sizeof *causes ? causes[answer.cause] : NULL;
  if (cause) say("%s", cause);
  else say("The console does not begin: status %u cause %u place %u", status, answer.cause, answer.place);
}

/* Switches the console on, with the options as they are now. */
static bool power_on(void) {
  static uint8_t boot[BOOT_SIZE + 1], table[TABLE_SIZE + 1];
  size_t boot_size, table_size;
  struct snes_answer answer = {0, 0, 0, 0};
  if (!read_chosen("bogtrun_snes_boot", boot, BOOT_SIZE, &boot_size)) return false;
  if (!read_chosen("bogtrun_snes_table", table, TABLE_SIZE, &table_size)) return false;
  uint32_t chosen = strcmp(option("bogtrun_snes_region"), "pal") ? SNES_NTSC : SNES_PAL;
  snes_end(&console);
  uint32_t status = snes_begin(&console, cart, cart_size, boot, boot_size, table, table_size, chosen, SNES_MOST_FRAMES, 0,
                               &answer);
  if (status != SNES_OK) {
    say_refused(status, answer);
    return false;
  }
  region = chosen;
  frames = 0;
  since_over = 0;
  return true;
}

/* What a pad has down: the front end's numbers are those of the bits, from bit 15 down. */
static uint16_t pad(unsigned port) {
  uint16_t down = 0;
  for (unsigned button = RETRO_DEVICE_ID_JOYPAD_B; button <= RETRO_DEVICE_ID_JOYPAD_R; button++) {
    if (state(port, RETRO_DEVICE_JOYPAD, 0, button)) down |= 0x8000 >> button;
  }
  return down;
}

/* The last frame stands, and it is said again and again what to do. */
static void stand_still(uint32_t status) {
  if (since_over++ % MESSAGE_FRAMES == 0) {
    if (status == SNES_FRAMES) say("The console has played its 36,000 frames. Reset: power on anew");
    else say("No console is on (status %u). Reset: power on anew", status);
  }
  show(picture, WIDTH, HEIGHT, WIDTH * sizeof *picture);
}

void retro_run(void) {
  struct snes_answer answer = {0, 0, 0, 0};
  poll();
  uint32_t status = snes_frame(&console, pad(0), pad(1), video, sizeof video, sound, sizeof sound, &answer);
  if (status != SNES_OK) {
    stand_still(status);
    return;
  }
  if (++frames == SNES_MOST_FRAMES - 3600) say("The console has 3,600 frames left");
  for (size_t dot = 0; dot < DOTS; dot++) picture[dot] = colours[(video[2 * dot] | video[2 * dot + 1] << 8) & 0x7fff];
  show(picture, WIDTH, HEIGHT, WIDTH * sizeof *picture);
  static int16_t samples[SNES_FRAME_SOUND_ROOM / 2];
  size_t count = answer.sound_count / 4, done = 0;
  for (size_t at = 0; at < 2 * count; at++) samples[at] = (int16_t)(sound[2 * at] | sound[2 * at + 1] << 8);
  while (done < count) {
    size_t taken = hear(samples + 2 * done, count - done);
    if (taken == 0) break;
    done += taken;
  }
}

/* Presses the reset button. Before the first frame, and twice with no frame between, the library refuses it, and nothing is
 * needed. A console that has played all its frames, or is not on, is powered on anew. */
void retro_reset(void) {
  uint32_t before = region;
  if (frames < SNES_MOST_FRAMES && snes_reset(&console) != SNES_EMPTY) return;
  if (!power_on()) return;
  say("Power on anew");
  if (region == before) return;
  struct retro_system_av_info info;
  retro_get_system_av_info(&info);
  environment(RETRO_ENVIRONMENT_SET_SYSTEM_AV_INFO, &info);
}

bool retro_load_game(const struct retro_game_info *game) {
  enum retro_pixel_format format = RETRO_PIXEL_FORMAT_XRGB8888;
  if (!game || !game->data || !environment(RETRO_ENVIRONMENT_SET_PIXEL_FORMAT, &format)) return false;
  cart = malloc(game->size ? game->size : 1);
  if (!cart) return false;
  memcpy(cart, game->data, game->size);
  cart_size = game->size;
  memset(picture, 0, sizeof picture);
  if (power_on()) return true;
  retro_unload_game();
  return false;
}

void retro_unload_game(void) {
  snes_end(&console);
  free(cart);
  cart = NULL;
  cart_size = 0;
}

void retro_get_system_info(struct retro_system_info *info) {
  *info = (struct retro_system_info){"Bogtrun SNES", "1.1", "sfc|smc", false, false};
}

void retro_get_system_av_info(struct retro_system_av_info *info) {
  double rate = region == SNES_PAL ? 21281370.0 / (312 * 1364) : 236250000.0 / 11 / (262 * 1364);
  *info = (struct retro_system_av_info){{WIDTH, HEIGHT, WIDTH, HEIGHT, 4.0f / 3.0f}, {rate, 32000.0}};
}

void retro_set_environment(retro_environment_t given) {
  environment = given;
  environment(RETRO_ENVIRONMENT_SET_VARIABLES, (void *)OPTIONS);
}

void retro_init(void) {
  for (uint32_t dot = 0; dot < 1 << 15; dot++) {
    uint32_t red = dot & 31, green = dot >> 5 & 31, blue = dot >> 10;
    colours[dot] = (red << 3 | red >> 2) << 16 | (green << 3 | green >> 2) << 8 | (blue << 3 | blue >> 2);
  }
}

void retro_deinit(void) {}
unsigned retro_api_version(void) { return RETRO_API_VERSION; }
void retro_set_video_refresh(retro_video_refresh_t given) { show = given; }
void retro_set_audio_sample(retro_audio_sample_t given) { (void)given; }
void retro_set_audio_sample_batch(retro_audio_sample_batch_t given) { hear = given; }
void retro_set_input_poll(retro_input_poll_t given) { poll = given; }
void retro_set_input_state(retro_input_state_t given) { state = given; }
void retro_set_controller_port_device(unsigned port, unsigned device) { (void)port, (void)device; }
unsigned retro_get_region(void) { return region == SNES_PAL ? RETRO_REGION_PAL : RETRO_REGION_NTSC; }

/* States are not given out: the library keeps them in itself. */
size_t retro_serialize_size(void) { return 0; }
bool retro_serialize(void *to, size_t size) { (void)to, (void)size; return false; }
bool retro_unserialize(const void *from, size_t size) { (void)from, (void)size; return false; }
void retro_cheat_reset(void) {}
void retro_cheat_set(unsigned index, bool enabled, const char *code) { (void)index, (void)enabled, (void)code; }
bool retro_load_game_special(unsigned type, const struct retro_game_info *info, size_t count) {
  (void)type, (void)info, (void)count;
  return false;
}
void *retro_get_memory_data(unsigned id) { (void)id; return NULL; }
size_t retro_get_memory_size(unsigned id) { (void)id; return 0; }
