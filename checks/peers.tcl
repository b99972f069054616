# What checks/peers puts into Redis's own Sentinel suite, behind its tests/instances.tcl, so that it plays sentinel_group's `watch`.
#
# A group of `watch` is fixed by its files, so what the suite says by a command is done to the file of a Sentinel that is stopped, and then started again: SENTINEL MONITOR
# and REMOVE make and delete the file, SET changes a line. SENTINEL DEBUG, which changes periods, changes nothing. All assertions stay as they are, and so do all other commands.
# SENTINEL_GROUP is the program, PEERS_SKIP a list of the tests that are left out.

namespace eval peers {
    # of each Sentinel: the lines of its next file by their option, empty where it watches nobody
    variable lines
    array set lines {}

    proc run_id {id} {
        return [string repeat [string index abcde $id] 40]
    }

    proc file_of {id} {
        return [file join "sentinel_$id" "sentinel.conf"]
    }

    # the file of a Sentinel, whole: those of the group, and the replicas of the master as they are now
    proc make_file {id} {
        variable lines
        set text [open [file_of $id] w]
        puts $text "port [get_instance_attrib sentinel $id port]"
        puts $text "sentinel myid [run_id $id]"
        array set mine $lines($id)
        puts $text "sentinel monitor mymaster $mine(monitor)"
        foreach option [lsort [array names mine]] {
            if {$option ne "monitor"} {
                puts $text "sentinel $option mymaster $mine($option)"
            }
        }
        lassign $mine(monitor) host master
        foreach_redis_id node {
            set port [get_instance_attrib redis $node port]
            if {$port != $master} {
                puts $text "sentinel known-replica mymaster $host $port"
            }
        }
        foreach_sentinel_id other {
            if {$other != $id} {
                puts $text "sentinel known-sentinel mymaster $host [get_instance_attrib sentinel $other port] [run_id $other]"
            }
        }
        close $text
    }

    # a line of the file of a Sentinel that is stopped; `auth-pass` and its like stand once for each master
    proc set_line {id option value} {
        set in [open [file_of $id] r]
        set text [split [string trimright [read $in]] "\n"]
        close $in
        set out [open [file_of $id] w]
        set done 0
        foreach line $text {
            if {$option eq "quorum" && [string match "sentinel monitor mymaster *" $line]} {
                puts $out [join [lreplace [split $line " "] 5 5 $value] " "]
                set done 1
            } elseif {[string match "sentinel $option mymaster *" $line]} {
                puts $out "sentinel $option mymaster $value"
                set done 1
            } else {
                puts $out $line
            }
        }
        if {!$done} {
            puts $out "sentinel $option mymaster $value"
        }
        close $out
    }

    proc is_up {id} {
        return [expr {[get_instance_attrib sentinel $id pid] != -1}]
    }

    proc monitor {id host port quorum} {
        variable lines
        set lines($id) [list monitor "$host $port $quorum"]
        return OK
    }

    proc remove {id} {
        variable lines
        if {[is_up $id]} {
            kill_instance sentinel $id
        }
        file delete [file_of $id]
        unset -nocomplain lines($id)
        return OK
    }

    proc change {id args} {
        set was_up [is_up $id]
        if {$was_up} {
            kill_instance sentinel $id
        }
        foreach {option value} $args {
            set_line $id $option $value
        }
        if {$was_up} {
            restart_instance sentinel $id
        }
        return OK
    }

    # waits until each Sentinel finds all others up: those that were started again for a SET were gone for a moment
    proc settle {} {
        foreach_sentinel_id id {
            wait_for_condition 1000 50 {
                [lsort -unique [lmap row [S $id SENTINEL SENTINELS mymaster] {dict get $row flags}]] eq "sentinel"
            } else {
                fail "Sentinel $id finds another one down"
            }
        }
    }

    # a Sentinel that is to watch, and wasn't started since it was told so
    proc start_if_due {id} {
        variable lines
        if {[info exists lines($id)] && ![file exists [file_of $id]] && ![is_up $id]} {
            make_file $id
            restart_instance sentinel $id
        }
    }
}

rename exec_instance peers::exec_redis
proc exec_instance {type dirname cfgfile} {
    if {$type eq "redis"} {
        return [peers::exec_redis $type $dirname $cfgfile]
    }
    set log [file join $dirname log.txt]
    return [exec $::env(SENTINEL_GROUP) watch $cfgfile >>& $log &]
}

# a Sentinel is started once it has a master to watch
rename spawn_instance peers::spawn_redis
proc spawn_instance {type base_port count {conf {}} {base_conf_file ""}} {
    if {$type eq "redis"} {
        return [peers::spawn_redis $type $base_port $count $conf $base_conf_file]
    }
    for {set j 0} {$j < $count} {incr j} {
        set dirname "${type}_${j}"
        lappend ::dirs $dirname
        catch {exec rm -rf $dirname}
        file mkdir $dirname
        set port [find_available_port $base_port $::redis_port_count]
        lappend ::sentinel_instances [list pid -1 host $::host port $port plaintext-port 0 link none]
        incr base_port
    }
}

rename restart_instance peers::restart
proc restart_instance {type id} {
    if {$type eq "redis" || [file exists [peers::file_of $id]]} {
        peers::restart $type $id
    }
}

rename S peers::ask
proc S {n args} {
    set words [string tolower [lrange $args 0 1]]
    switch -- $words {
        "sentinel debug" { return OK }
        "sentinel remove" { return [peers::remove $n] }
        "sentinel monitor" { return [peers::monitor $n {*}[lrange $args 3 end]] }
        "sentinel set" { return [peers::change $n {*}[lrange $args 3 end]] }
    }
    peers::start_if_due $n
    return [peers::ask $n {*}$args]
}

rename test peers::play
proc test {descr code} {
    foreach pattern $::env(PEERS_SKIP) {
        if {[string match $pattern $descr]} {
            puts "SKIPPED> $descr"
            return
        }
    }
    uplevel 1 [list peers::play $descr $code]
    if {[string match "(init) Sentinels are able to auto-discover slaves" $descr]} {
        peers::settle
    }
}
