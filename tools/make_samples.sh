#!/bin/sh
# Makes the page files of crates/samples/data anew, with programs of Debian 12 (bookworm):
#   apt-get install netpbm imagemagick graphicsmagick ffmpeg gimp
# Other versions of these programs may write other bytes; then crates/samples/stdout has to be made
# anew too, by tools/expect_samples.py.
set -eu
cd "$(dirname "$0")/../crates/samples/data"

# Netpbm
pgmramp -lr 8 2 > netpbm_ramp.pgm
ppmrainbow -width 9 -height 2 red green blue > netpbm_rainbow.ppm
ppmtopgm netpbm_rainbow.ppm > netpbm_grey.pgm
pamcut -left 2 -top 0 -width 4 -height 1 netpbm_rainbow.ppm > netpbm_cut.ppm
# the last place without any of its bytes, the one before it without one of them
head -c -4 netpbm_rainbow.ppm > netpbm_short.ppm
pgmramp -lr -maxval=15 4 1 > netpbm_max15.pgm
pnmtoplainpnm netpbm_ramp.pgm > netpbm_plain.pgm

# ImageMagick and GraphicsMagick
convert -size 4x3 gradient: -depth 8 imagemagick_gradient.pgm
convert -size 3x4 gradient:red-blue -depth 8 imagemagick_gradient.ppm
convert -size 2x2 gradient: -depth 16 imagemagick_deep.pgm
gm convert -size 4x3 gradient:red-blue -depth 8 graphicsmagick_gradient.ppm

# FFmpeg
ffmpeg -loglevel error -y -f lavfi -i testsrc2=size=12x8:rate=1 \
    -frames:v 1 -pix_fmt rgb24 -update 1 ffmpeg_testsrc.ppm
ffmpeg -loglevel error -y -f lavfi -i mandelbrot=size=20x12:rate=1 \
    -frames:v 1 -pix_fmt gray -update 1 ffmpeg_mandelbrot.pgm

# GIMP, which writes a comment into the header
gimp -i -d -f -b '
(let* ((image (car (gimp-image-new 6 3 GRAY)))
       (layer (car (gimp-layer-new image 6 3 GRAY-IMAGE "ramp" 100 LAYER-MODE-NORMAL))))
  (gimp-image-insert-layer image layer 0 0)
  (gimp-context-set-foreground (list 0 0 0))
  (gimp-context-set-background (list 255 255 255))
  (gimp-drawable-edit-gradient-fill layer GRADIENT-LINEAR 0 FALSE 1 0 FALSE 0 0 6 0)
  (file-pgm-save RUN-NONINTERACTIVE image layer "gimp_gradient.pgm" "gimp_gradient.pgm" 1))
' -b '(gimp-quit 0)' > /dev/null 2>&1
