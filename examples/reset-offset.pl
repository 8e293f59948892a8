#!/usr/bin/perl
# Sets the time offset in a credential cache to 0: reset-offset.pl CACHE
# It is how far the clock was off at kinit, and wrong once the clock has been set right.
# krbfile holds the cache meanwhile. Killed before it prints, the script saves nothing.
use strict;
use warnings;
use IPC::Open2;

# In case krbfile is killed.
$SIG{PIPE} = 'IGNORE';
@ARGV == 1 or die "usage: $0 CACHE\n";
open2(my $out, my $in, 'krbfile', 'hold', '--', $ARGV[0]);
binmode $_ for $out, $in;
my $line = <$out> // "nothing was saved\n";
if ($line =~ /^(\d+)$/) {
    my $length = $line;
    read($out, my $image, $length) == $length or die "$0: the image is cut\n";
    my ($version, $size) = unpack 'xCn', $image;
    for (my $at = 4; $version == 4 && $at < 4 + $size;) {
        my ($tag, $bytes) = unpack "x$at nn", $image;
        substr($image, $at + 4, 8) = "\0" x 8 if $tag == 1 && $bytes == 8;
        $at += 4 + $bytes;
    }
    print $in $length, $image;
    close $in;
    $line = <$out> // "it is not known whether it was saved\n";
}
# The last line, after the image or in its place, says how it ended.
$line =~ /^(?:saved|left|failed (\d+) .*)$/ or die "$0: $line";
exit($1 // 0);
