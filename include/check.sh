#!/usr/bin/env bash
# The header compiles by itself as C and as C++, without a warning.
set -euo pipefail
cd "$(dirname "${BASH_SOURCE[0]}")"
strict='-Wall -Wextra -pedantic -Werror -fsyntax-only'
for edition in c99 c11 c17; do
  gcc -std=$edition $strict -x c chorvugdan.h
done
for edition in c++11 c++17 c++20; do
  g++ -std=$edition $strict -x c++ chorvugdan.h
done
echo 'chorvugdan.h compiles as C (c99, c11, c17) and as C++ (c++11, c++17, c++20)'
