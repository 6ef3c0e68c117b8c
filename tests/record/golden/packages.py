"""The packages of the golden traces: what builds them, and how. They are sources of Debian 12, built by hand in an unpacked folder."""

from dataclasses import dataclass


@dataclass(frozen=True)
class Package:
    """A source package of Debian."""

    name: str
    kind: str  # what its build shows
    words: str  # the command that is recorded
    before: str = ""  # what configures it, in the shell
    needs: str = ""  # packages that it is built with, beside gcc and make


CONFIGURE, AGAIN = "./configure", "autoreconf -fi && ./configure"
CMAKE, NINJA = "cmake -B build", "cmake -G Ninja -B build"
MESON = "meson setup build"
PERL = "perl Makefile.PL"

PACKAGES = {package.name: package for package in (
    Package("bzip2", "makefile by hand", "make"),
    Package("jhead", "makefile by hand", "make"),
    Package("lua5.4", "makefile by hand", "make linux", needs="libtool-bin libreadline-dev"),
    Package("tree", "makefile by hand", "make"),
    Package("unzip", "makefile by hand", "make -f unix/Makefile generic"),
    Package("xxhash", "makefile by hand", "make"),
    Package("zlib", "makefile by hand", "make", CONFIGURE),
    Package("discount", "makefile by hand, generated code", "make", "./configure.sh"),
    Package("nasm", "makefile by hand, generated code", "make", CONFIGURE),
    Package("pciutils", "makefile by hand, recursive", "make ZLIB=no DNS=no HWDB=no LIBKMOD=no"),
    Package("lz4", "makefile by hand, recursive", "make"),
    Package("iproute2", "makefile by hand, recursive", "make", CONFIGURE, "bison flex libmnl-dev libelf-dev"),
    Package("hello", "autotools", "make", CONFIGURE),
    Package("ed", "makefile by hand", "make", CONFIGURE),
    Package("gzip", "autotools", "make", CONFIGURE),
    Package("sed", "autotools", "make", CONFIGURE),
    Package("patch", "autotools", "make", AGAIN, "automake"),
    Package("gperf", "autotools, recursive", "make", CONFIGURE),
    Package("mawk", "autotools, generated code", "make", CONFIGURE),
    Package("less", "autotools", "make", CONFIGURE, "libncurses-dev"),
    Package("dash", "autotools, generated code", "make", AGAIN, "automake"),
    Package("bc", "autotools, generated code", "make", AGAIN, "automake bison flex texinfo libreadline-dev"),
    Package("flex", "autotools, generated code", "make", AGAIN, "automake libtool autopoint gettext bison flex help2man texinfo"),
    Package("jansson", "autotools, recursive, libtool", "make", AGAIN, "automake libtool"),
    Package("tinyproxy", "autotools, recursive", "make", AGAIN, "automake"),
    Package("expat", "autotools, recursive, libtool", "make -C expat", "cd expat && ./buildconf.sh && ./configure --without-docbook", "automake libtool"),
    Package("libpng1.6", "autotools, libtool", "make", CONFIGURE, "zlib1g-dev"),
    Package("jq", "autotools, generated code", "make", AGAIN + " --disable-docs --disable-maintainer-mode", "automake libtool libonig-dev"),
    Package("procps", "autotools, recursive", "make", AGAIN + " --without-systemd", "automake libtool autopoint gettext libncurses-dev"),
    Package("cjson", "CMake, make", "make -C build", CMAKE, "cmake"),
    Package("json-c", "CMake, make", "cmake --build build", CMAKE, "cmake"),
    Package("tinyxml2", "CMake, ninja", "cmake --build build", NINJA, "cmake ninja-build g++"),
    Package("cmark", "CMake, ninja", "ninja -C build", NINJA, "cmake ninja-build"),
    Package("libuv1", "CMake, ninja", "ninja -C build", NINJA + " -DLIBUV_BUILD_TESTS=OFF", "cmake ninja-build"),
    Package("fribidi", "Meson, generated code", "ninja -C build", MESON + " -Ddocs=false", "meson"),
    Package("iputils", "Meson", "ninja -C build", MESON + " -DUSE_CAP=false -DUSE_IDN=false -DBUILD_MANS=false -DBUILD_HTML_MANS=false", "meson"),
    Package("libxkbcommon", "Meson, generated code", "ninja -C build libxkbcommon.so.0.0.0 libxkbregistry.so.0.0.0",
            MESON + " -Denable-x11=false -Denable-wayland=false -Denable-docs=false", "meson bison libxml2-dev"),
    Package("wayland", "Meson, generated code", "ninja -C build", MESON + " -Ddocumentation=false -Dtests=false", "meson libffi-dev libexpat1-dev libxml2-dev"),
    Package("busybox", "kbuild", "make -o gen_build_files applets/", "make allnoconfig gen_build_files"),
    Package("libjson-xs-perl", "Perl", "make", PERL, "libcanary-stability-perl libcommon-sense-perl libtypes-serialiser-perl"),
    Package("libyaml-libyaml-perl", "Perl", "make", PERL, "libyaml-dev"),
    Package("libtext-csv-xs-perl", "Perl", "make", PERL),
    Package("findlib", "OCaml", "make all opt", CONFIGURE, "ocaml"),
    Package("ocaml-zarith", "OCaml", "make", CONFIGURE, "ocaml ocaml-findlib libgmp-dev"),
    Package("ocamlbuild", "OCaml", "make", "make configure", "ocaml"),
    Package("extlib", "OCaml", "make -C src build minimal=1", "", "ocaml ocaml-findlib cppo"),
    Package("libtomcrypt", "LaTeX", "make docs", "", "texlive-latex-base texlive-latex-recommended"),
    Package("pkgconf", "autotools", "make", CONFIGURE),
    Package("kmod", "autotools", "make", CONFIGURE),
)}
