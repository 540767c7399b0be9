# The calls of this application see the clock of a test, and so do the timeouts of GenServer and the rest.
:ok = Ertime.transform([:lease, :otp])
ExUnit.start()
