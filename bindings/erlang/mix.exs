defmodule Ertime.MixProject do
  use Mix.Project

  def project do
    [
      app: :ertime,
      version: "1.0.0",
      elixir: "~> 1.14",
      description: "The clock and timers of the Erlang runtime, moved by hand in tests",
      package: [
        licenses: ["Apache-2.0"],
        links: %{},
        files:
          ~w(README.md mix.exs rebar.config chunks.escript lib src c_src/Makefile c_src/*.c c_src/*.h c_src/text/*.c)
      ],
      docs: docs(),
      compilers: [:ertime_nif | Mix.compilers()] ++ [:ertime_chunks],
      erlc_options: [:debug_info],
      deps: []
    ]
  end

  # For ex_doc, which isn't asked for here: `mix docs` of a project that has it in its dependencies.
  defp docs do
    # The guide, in a tarball and in a clone.
    guides = Enum.filter(["ERLANG.md", "../../docs/ERLANG.md"], &File.exists?/1)

    [
      main: "Ertime",
      extras: ["README.md" | guides],
      groups_for_modules: [
        "In Elixir": [Ertime, Ertime.Case, Ertime.Generators],
        "A clock by hand": [:ertime, :ertime_clock, :ertime_cth, :ertime_transform],
        "Times and timers": [:ertime_times, :ertime_timers, :ertime_timer, :ertime_monitors],
        Faults: [:ertime_faults, :ertime_proper, :ertime_nodes],
        "A live node": [:ertime_tap, :ertime_tap_history, :ertime_tap_log],
        "Scenarios and histories": [:ertime_text]
      ]
    ]
  end

  def application do
    [extra_applications: [:compiler], env: [rest_limit: 5000]]
  end
end

defmodule Mix.Tasks.Compile.ErtimeNif do
  @moduledoc "Builds the NIF by `make` in `c_src`, whose Makefile says how it finds the C library."
  use Mix.Task.Compiler

  @impl true
  def run(_arguments) do
    folder = Path.join(File.cwd!(), "c_src")

    case System.cmd("make", ["-C", folder], stderr_to_stdout: true) do
      {_, 0} ->
        Mix.Project.build_structure()
        {:ok, []}

      {output, _} ->
        Mix.shell().error(output)
        {:error, []}
    end
  end

  @impl true
  def clean do
    System.cmd("make", ["-C", Path.join(File.cwd!(), "c_src"), "clean"])
    :ok
  end
end

defmodule Mix.Tasks.Compile.ErtimeChunks do
  @moduledoc "Writes what `h :ertime` of iex tells, by `chunks.escript`."
  use Mix.Task.Compiler

  @impl true
  def run(_arguments) do
    {told, _} = System.cmd("escript", ["chunks.escript", Mix.Project.app_path()], stderr_to_stdout: true)
    told == "" || Mix.shell().info(told)
    {:ok, []}
  end
end
