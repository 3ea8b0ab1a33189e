MyType = "Job"
GlobalJobId = "submit.pool.example.org#101.0#1700000001"
ClusterId = 101
ProcId = 0
Owner = "bob"
Cmd = "/home/bob/run.sh"
Args = "--seed 1"
JobPrio = 1
ImageSize = 1000
RequestMemory = 512
QDate = 1700000001
CumulativeRemoteSysCpu = 1.0
Environment = "HOME=/home/bob;SEED=1"
Requirements = (TARGET.Arch == "X86_64") && (TARGET.OpSys == "LINUX") && (TARGET.Memory >= RequestMemory)
Rank = TARGET.Memory
TransferInput = { "a.dat", "b-1.dat" }

MyType = "Job"
GlobalJobId = "submit.pool.example.org#102.0#1700000002"
ClusterId = 102
ProcId = 0
Owner = "carol"
Cmd = "/home/carol/run.sh"
Args = "--seed 2"
JobPrio = 2
ImageSize = 2000
RequestMemory = 1024
QDate = 1700000002
CumulativeRemoteSysCpu = 2.0
Environment = "HOME=/home/carol;SEED=2"
Requirements = (TARGET.Arch == "X86_64") && (TARGET.OpSys == "LINUX") && (TARGET.Memory >= RequestMemory)
Rank = 0.0
TransferInput = { "a.dat", "b-2.dat" }

MyType = "Job"
GlobalJobId = "submit.pool.example.org#103.0#1700000003"
ClusterId = 103
ProcId = 0
Owner = "ann"
Cmd = "/home/ann/run.sh"
Args = "--seed 3"
JobPrio = 3
ImageSize = 3000
RequestMemory = 1536
QDate = 1700000003
CumulativeRemoteSysCpu = 3.0
Environment = "HOME=/home/ann;SEED=3"
Requirements = (TARGET.Arch == "X86_64") && (TARGET.OpSys == "LINUX") && (TARGET.Memory >= RequestMemory)
Rank = TARGET.Memory
TransferInput = { "a.dat", "b-3.dat" }
PeriodicHold = (JobStatus == 2) && ((CurrentTime - EnteredCurrentStatus) > 1.0E+04)

MyType = "Job"
GlobalJobId = "submit.pool.example.org#104.0#1700000004"
ClusterId = 104
ProcId = 0
Owner = "bob"
Cmd = "/home/bob/run.sh"
Args = "--seed 4"
JobPrio = 0
ImageSize = 4000
RequestMemory = 2048
QDate = 1700000004
CumulativeRemoteSysCpu = 4.0
Environment = "HOME=/home/bob;SEED=4"
Requirements = (TARGET.Arch == "X86_64") && (TARGET.OpSys == "LINUX") && (TARGET.Memory >= RequestMemory)
Rank = 0.0
TransferInput = { "a.dat", "b-4.dat" }

MyType = "Job"
GlobalJobId = "submit.pool.example.org#105.0#1700000005"
ClusterId = 105
ProcId = 0
Owner = "carol"
Cmd = "/home/carol/run.sh"
Args = "--seed 5"
JobPrio = 1
ImageSize = 5000
RequestMemory = 2560
QDate = 1700000005
CumulativeRemoteSysCpu = 5.0
Environment = "HOME=/home/carol;SEED=5"
Requirements = (TARGET.Arch == "X86_64") && (TARGET.OpSys == "LINUX") && (TARGET.Memory >= RequestMemory)
Rank = TARGET.Memory
TransferInput = { "a.dat", "b-5.dat" }

MyType = "Job"
GlobalJobId = "submit.pool.example.org#106.0#1700000006"
ClusterId = 106
ProcId = 0
Owner = "ann"
Cmd = "/home/ann/run.sh"
Args = "--seed 6"
JobPrio = 2
ImageSize = 6000
RequestMemory = 3072
QDate = 1700000006
CumulativeRemoteSysCpu = 6.0
Environment = "HOME=/home/ann;SEED=6"
Requirements = (TARGET.Arch == "X86_64") && (TARGET.OpSys == "LINUX") && (TARGET.Memory >= RequestMemory)
Rank = 0.0
TransferInput = { "a.dat", "b-6.dat" }

MyType = "Job"
GlobalJobId = "submit.pool.example.org#107.0#1700000007"
ClusterId = 107
ProcId = 0
Owner = "bob"
Cmd = "/home/bob/run.sh"
Args = "--seed 7"
JobPrio = 3
ImageSize = 7000
RequestMemory = 3584
QDate = 1700000007
CumulativeRemoteSysCpu = 7.0
Environment = "HOME=/home/bob;SEED=7"
Requirements = (TARGET.Arch == "X86_64") && (TARGET.OpSys == "LINUX") && (TARGET.Memory >= RequestMemory)
Rank = TARGET.Memory
TransferInput = { "a.dat", "b-7.dat" }
-- Schedd: submit.pool.example.org

MyType = "Job"
GlobalJobId = "submit.pool.example.org#108.0#1700000008"
ClusterId = 108
ProcId = 0
Owner = "carol"
Cmd = "/home/carol/run.sh"
Args = "--seed 8"
JobPrio = 0
ImageSize = 8000
RequestMemory = 4096
QDate = 1700000008
CumulativeRemoteSysCpu = 8.0
Environment = "HOME=/home/carol;SEED=8"
Requirements = (TARGET.Arch == "X86_64") && (TARGET.OpSys == "LINUX") && (TARGET.Memory >= RequestMemory)
Rank = 0.0
TransferInput = { "a.dat", "b-8.dat" }

MyType = "Job"
GlobalJobId = "submit.pool.example.org#109.0#1700000009"
ClusterId = 109
ProcId = 0
Owner = "ann"
Cmd = "/home/ann/run.sh"
Args = "--seed 9"
JobPrio = 1
ImageSize = 9000
RequestMemory = 4608
QDate = 1700000009
CumulativeRemoteSysCpu = 9.0
Environment = "HOME=/home/ann;SEED=9"
Requirements = (TARGET.Arch == "X86_64") && (TARGET.OpSys == "LINUX") && (TARGET.Memory >= RequestMemory)
Rank = TARGET.Memory
TransferInput = { "a.dat", "b-9.dat" }

MyType = "Job"
GlobalJobId = "submit.pool.example.org#110.0#1700000010"
ClusterId = 110
ProcId = 0
Owner = "bob"
Cmd = "/home/bob/run.sh"
Args = "--seed 10"
JobPrio = 2
ImageSize = 10000
RequestMemory = 5120
QDate = 1700000010
CumulativeRemoteSysCpu = 10.0
Environment = "HOME=/home/bob;SEED=10"
Requirements = (TARGET.Arch == "X86_64") && (TARGET.OpSys == "LINUX") && (TARGET.Memory >= RequestMemory)
Rank = 0.0
TransferInput = { "a.dat", "b-10.dat" }
