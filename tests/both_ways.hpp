// Each call through mv.h and through mv.hpp on equal words: the same answer, and the same words after it.
#pragma once

#include <cstdio>
#include <cstring>
#include <string_view>
#include <type_traits>

#include "mv.hpp"

inline int both_ways() {
    mv::Tables typed;
    std::array<std::uint64_t, mv::kWords> words{};
    mv_fresh(words.data(), words.size());
    mv::LentTables lent{words};
    int differ = 0;
    const auto same = [&](const char* call, mv_answer plain, mv::Answer answer) {
        const bool words_same = std::memcmp(words.data(), typed.data(), sizeof words) == 0;
        if (mv::Answer{plain} == answer && words_same) return;
        ++differ;
        std::printf("%s differs\n", call);
    };
    std::uint64_t* const w = words.data();
    const std::size_t n = words.size();
    const mv::Txn one{1}, two{2};
    const mv::Obj five{5}, six{6};
    same("fresh", mv_fresh(w, n), typed.fresh());
    same("start", mv_start(w, n), typed.start());
    same("start", mv_start(w, n), typed.start());
    same("write", mv_write(w, n, 1, 5, 100), typed.write(one, five, 100));
    same("wait or die", mv_read(w, n, 2, 5), typed.read(two, five));
    same("start", mv_start(w, n), typed.start());
    same("prepare", mv_prepare(w, n, 1, 5), typed.prepare(one, five));
    same("read", mv_read(w, n, 3, 5), typed.read(mv::Txn{3}, five));
    same("save", mv_save(w, n, 5), typed.save(five));
    same("commit", mv_commit(w, n, 1), typed.commit(one));
    same("settle", mv_settle(w, n, 5), typed.settle(five));
    same("look", mv_look(w, n, 5), typed.look(five));
    same("status", mv_status(w, n, 2), typed.status(two));
    same("crash", mv_crash(w, n, 1u << 5), typed.crash(mv::ObjSet{}.with(five)));
    same("lost", mv_prepare(w, n, 3, 5), typed.prepare(mv::Txn{3}, five));
    same("abort", mv_abort(w, n, 3), typed.abort(mv::Txn{3}));
    same("start", mv_start(w, n), typed.start());
    same("write", mv_write(w, n, 4, 6, 1), typed.write(mv::Txn{4}, six, 1));
    const std::string_view line = "0c00000000050000000000000000\n";
    const auto* bytes = reinterpret_cast<const std::uint8_t*>(line.data());
    same("line", mv_line(w, n, bytes, line.size()), typed.line(line));
    std::uint8_t plain_room[19] = {};
    char typed_room[19] = {};
    same("run", mv_run(w, n, bytes, line.size(), plain_room, 19), typed.run(line, typed_room, 19));
    if (std::memcmp(plain_room, typed_room, 19) != 0 || plain_room[17] != '4') ++differ, std::printf("room differs\n");
    same("restart", mv_restart(w, n), typed.restart());
    // A run without words of the right count, and texts without an address.
    if (mv::LentTables{w, n - 1}.start() != mv::Answer{mv_answer{MV_UNSOUND, 0}}) ++differ, std::printf("short run\n");
    if (lent.line({}) != mv::Answer{mv_answer{MV_BAD_FRAME, 0}}) ++differ, std::printf("empty line\n");
    if (lent.run({}, nullptr, 0) != mv::Answer{mv_answer{MV_DONE, 0}}) ++differ, std::printf("empty run\n");
    if (mv_word_count() != mv::kWords) ++differ, std::printf("word count\n");
    return differ;
}

// The three kinds of number stay apart.
static_assert(!std::is_convertible_v<mv::Txn, mv::Obj> && !std::is_convertible_v<mv::Obj, mv::Txn>);
static_assert(!std::is_convertible_v<mv::Txn, mv::Lsn> && !std::is_convertible_v<mv::Lsn, mv::Txn>);
static_assert(!std::is_constructible_v<mv::Txn, mv::Lsn> && !std::is_constructible_v<mv::Obj, mv::Lsn>);
static_assert(!std::is_convertible_v<unsigned, mv::Txn> && !std::is_convertible_v<mv::Txn, unsigned>);
